// Runs concurrent transactions against BadgerDB and logs them for sicheck, one line of JSON each.
//
// A transaction's ReadTs r is the number of the last commit that its snapshot sees: its start is 2r + 2. Commit answers with no number, so
// each writer puts its id under a key of its client too, which isn't logged; the version of that key, read afterwards, is the number c of
// the commit, logged as 2c + 1. That key also tells whether a commit happened whose answer was lost.
//
// Badger checks at the commit that nothing that was read has changed. So two that write a key without having read it both commit, which
// snapshot isolation doesn't allow, and Badger doesn't promise against. Here each key is read before it is written; with -blind it isn't,
// and then -order logs the transactions in the order of their commits, which is what Badger promises.
package main

import (
	"errors"
	"flag"
	"fmt"
	"io/ioutil"
	"math/rand"
	"os"
	"strconv"
	"strings"
	"sync"
	"time"

	"github.com/dgraph-io/badger"
)

const (
	ids    = 1000000 // an id is the client's number times this, plus which of the client's transactions it is
	places = 4096    // a value is the id of its writer times this, plus its place among the operations
)

var (
	clients      = flag.Int("clients", 4, "how many run at once")
	transactions = flag.Int("transactions", 300, "of each client")
	keys         = flag.Int("keys", 6, "how many there are")
	seed         = flag.Int64("seed", 1, "of the chance")
	blind        = flag.Bool("blind", false, "write without reading before")
	order        = flag.Bool("order", false, "log in the order of commits")
	fault        = flag.String("fault", "", "conflicts: Badger checks none; cache: reads from a cache that nobody clears; "+
		"outside: reads outside of the transaction; outcome: some commits are taken for rollbacks")
)

// output takes one line at a time.
var output sync.Mutex

func tell(line string) {
	output.Lock()
	defer output.Unlock()
	// One write for each line; who reads may have gone.
	if _, err := os.Stdout.WriteString(line + "\n"); err != nil {
		os.Exit(1)
	}
}

func check(err error) {
	if err != nil {
		fmt.Fprintln(os.Stderr, "client:", err)
		os.Exit(1)
	}
}

// txn is a transaction as the client sees it, and what the log has of it.
type txn struct {
	id, start uint64
	ops       []string
	writes    bool
	badger    *badger.Txn
}

func (t *txn) tell(status string, stamps string) {
	tell(fmt.Sprintf(`{"do":"txn","id":%d,%s,"ops":[%s]}`, t.id, fmt.Sprintf(stamps, `"status":"`+status+`"`), strings.Join(t.ops, ",")))
}

// committed tells of the transaction once its commit is known: c is its number, and of one that only read it isn't looked at.
func (t *txn) committed(c uint64) {
	start, commit := 2*t.start+2, 2*c+1
	if !t.writes {
		commit = start
	} else if *order {
		start = 2 * c
	}
	t.tell("committed", fmt.Sprintf(`"start":%d,%%s,"commit":%d`, start, commit))
}

func (t *txn) unfinished(status string) {
	t.tell(status, fmt.Sprintf(`"start":%d,%%s`, 2*t.start+2))
}

// client has its own chance, count and cache.
type client struct {
	db     *badger.DB
	number int
	count  int
	chance *rand.Rand
	cache  map[string]string // what it saw of each key, as the log has it
}

// own is the key that tells the client's last commit.
func (c *client) own() []byte { return []byte(fmt.Sprintf("last/%d", c.number)) }

// value is what the transaction finds under the key, as the log has it: a number, or null.
func value(t *badger.Txn, key string) string {
	item, err := t.Get([]byte(key))
	if errors.Is(err, badger.ErrKeyNotFound) {
		return "null"
	}
	check(err)
	data, err := item.ValueCopy(nil)
	check(err)
	return string(data)
}

func (c *client) read(t *txn, key string) {
	seen, known := c.cache[key]
	switch {
	case *fault == "cache" && known:
	case *fault == "outside":
		check(c.db.View(func(other *badger.Txn) error {
			seen = value(other, key)
			return nil
		}))
	default:
		seen = value(t.badger, key)
	}
	c.cache[key] = seen
	t.ops = append(t.ops, fmt.Sprintf(`["r","%s",%s]`, key, seen))
}

func (c *client) write(t *txn, key string) {
	if !*blind {
		c.read(t, key)
	}
	written := strconv.FormatUint(t.id*places+uint64(len(t.ops)), 10)
	check(t.badger.Set([]byte(key), []byte(written)))
	c.cache[key] = written
	t.ops = append(t.ops, fmt.Sprintf(`["w","%s",%s]`, key, written))
	t.writes = true
}

func (c *client) runTransaction() {
	c.count++
	t := &txn{id: uint64(c.number*ids + c.count), badger: c.db.NewTransaction(true)}
	defer t.badger.Discard()
	t.start = t.badger.ReadTs()
	onlyReads := c.chance.Float64() < 0.3
	for n := 2 + c.chance.Intn(3); n > 0; n-- {
		// so that the transactions of several clients are under way at once
		time.Sleep(time.Duration(c.chance.Intn(2000)) * time.Microsecond)
		key := fmt.Sprintf("k%d", c.chance.Intn(*keys))
		if onlyReads || c.chance.Float64() < 0.5 {
			c.read(t, key)
		} else {
			c.write(t, key)
		}
	}
	if !t.writes {
		t.committed(0)
	} else {
		c.end(t)
	}
}

// end commits or rolls back, and now and then loses the answer.
func (c *client) end(t *txn) {
	if c.chance.Float64() < 0.1 {
		t.badger.Discard()
		c.rolledBack(t)
		return
	}
	check(t.badger.Set(c.own(), []byte(strconv.FormatUint(t.id, 10))))
	err := t.badger.Commit()
	if err != nil && !errors.Is(err, badger.ErrConflict) {
		check(err)
	}
	isLost := c.chance.Float64() < 0.1
	if isLost && !*order {
		// In the order of commits it has no start before its commit is known, so there its line waits.
		t.unfinished("indoubt")
	}
	commit, isCommitted := c.last(t.id)
	switch {
	case isLost && !*order && isCommitted:
		tell(fmt.Sprintf(`{"do":"resolve","id":%d,"status":"committed","commit":%d}`, t.id, 2*commit+1))
	case isLost && !*order:
		tell(fmt.Sprintf(`{"do":"resolve","id":%d,"status":"aborted"}`, t.id))
		c.cache = map[string]string{}
	case isCommitted && !(*fault == "outcome" && c.chance.Float64() < 0.1):
		t.committed(commit)
	default:
		c.rolledBack(t)
	}
}

func (c *client) rolledBack(t *txn) {
	t.unfinished("aborted")
	c.cache = map[string]string{}
}

// last is the number of the commit of that transaction, if the client's own key has it.
func (c *client) last(id uint64) (commit uint64, isCommitted bool) {
	check(c.db.View(func(other *badger.Txn) error {
		item, err := other.Get(c.own())
		if errors.Is(err, badger.ErrKeyNotFound) {
			return nil
		}
		check(err)
		data, err := item.ValueCopy(nil)
		commit, isCommitted = item.Version(), string(data) == strconv.FormatUint(id, 10)
		return err
	}))
	return
}

// prepare gives every other key a value from before the run, and tells of it.
func prepare(db *badger.DB) {
	check(db.Update(func(t *badger.Txn) error {
		for place := 0; place < *keys; place += 2 {
			check(t.Set([]byte(fmt.Sprintf("k%d", place)), []byte(strconv.Itoa(place))))
			tell(fmt.Sprintf(`{"do":"setup","key":"k%d","value":%d}`, place, place))
		}
		return nil
	}))
}

func main() {
	flag.Parse()
	room, err := ioutil.TempDir("", "badger")
	check(err)
	defer os.RemoveAll(room)
	db, err := badger.Open(badger.DefaultOptions(room).WithLogger(nil).WithDetectConflicts(*fault != "conflicts"))
	check(err)
	defer db.Close()
	prepare(db)
	var all sync.WaitGroup
	for number := 1; number <= *clients; number++ {
		c := &client{db: db, number: number, chance: rand.New(rand.NewSource(*seed*100 + int64(number))), cache: map[string]string{}}
		all.Add(1)
		go func() {
			defer all.Done()
			for n := 0; n < *transactions; n++ {
				c.runTransaction()
			}
		}()
	}
	all.Wait()
}
