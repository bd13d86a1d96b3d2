"""What an example client does wrong on purpose, and what it writes down of that: what it did, and not which finding comes of it.

One transaction at a time goes wrong, so no fault hides another one. A fault counts where it changed something: a read returned another value
than the one that the database had for it, or a write replaced a version that the transaction's snapshot doesn't show. With `--notes FILE` each
is a line of JSON there, once its transaction has committed:

    {"did":"cache","id":1000007,"op":2,"key":"k1","returned":3,"instead":8192004097}    or `outside`, `unlocked`, `misjudged`, `late`
    {"did":"write","id":1000008,"key":"k1","replaced":8192004097}

A write's line says which value it replaced, where the database tells, and, where nobody looked for a conflict, as `seen` the one that the
snapshot shows. A run goes on until `--least` faults have counted, within a bound.
"""
import json
import threading
import time

MEANINGS = {
    "cache": "reads from a cache that nobody clears",
    "outside": "reads outside of the transaction's snapshot",
    "unchecked": "writes without the check for conflicts",
    "unlocked": "reads without the transaction's locks",
    "outcome": "commits that are taken for rollbacks",
}
MOST = 20  # so many times the transactions that are asked for, while faults are missing


def add_options(words, *faults):
    """The options that say what goes wrong."""
    words.add_argument("--fault", choices=faults, help="; ".join(f"{it}: {MEANINGS[it]}" for it in faults))
    words.add_argument("--least", type=int, default=20, help="go on until so many faults have counted")
    words.add_argument("--notes", metavar="FILE", help="what went wrong, a line each")
    words.add_argument("--stamps", choices=["clock", "late"],
                       help="false stamps of a healthy database: a clock's, read behind the snapshot and the commit; or starts asked for too late")


class Faults:
    """What goes wrong in a run: the clients, which are threads, share it."""

    def __init__(self, options):
        self.kind, self.transactions, self.least = options.fault, options.transactions, options.least
        self.stamps = options.stamps
        self.count, self.misjudged = 0, set()
        self.turn, self.guard = threading.Lock(), threading.Lock()
        self.file = open(options.notes, "w", encoding="utf-8") if options.notes else None

    def rounds(self):
        """As many transactions of a client as are asked for, and more while faults are missing."""
        for count in range(MOST * self.transactions):
            if count >= self.transactions and (self.kind is None and self.stamps != "late" or self.count >= self.least):
                return
            yield count

    def draw(self, plan, only_reads, one_writer=False):
        """What goes wrong in a client's next transaction, if anything: something that may matter there. Who is the only writer reads the newest
        anyway. Till that transaction ends no other one goes wrong."""
        if self.kind in ("unchecked", "outcome"):
            suits = not only_reads
        else:
            suits = self.kind and (self.kind != "outside" or only_reads or not one_writer)
        return self.kind if suits and plan.happens(0.6) and self.turn.acquire(blocking=False) else None

    def add(self, notes):
        with self.guard:
            for note, counts in notes:
                self.count += counts
                if self.file:
                    self.file.write(json.dumps(note, separators=(",", ":")) + "\n")
            if self.file:
                self.file.flush()


class Told:
    """A transaction of a client, beside what was drawn to go wrong in it. `cache` is the client's: what it read last of each key."""

    def __init__(self, faults, txn, cache, wrong):
        self.faults, self.txn, self.cache, self.wrong = faults, txn, cache, wrong
        if wrong == "outcome":
            faults.misjudged.add(txn.id)
        self.written, self.replaced, self.unlocked, self.notes, self.later = {}, {}, [], [], None
        self.done = []  # each operation

    def starts(self, snapshot, later=None):
        """The database's number of its snapshot, or the false one that is asked for; `later` asks for the newest outside of it."""
        self.txn.start = time.time_ns() if self.faults.stamps == "clock" else snapshot
        self.later = later if self.faults.stamps == "late" else None

    def read(self, key, found, newest=None):
        """A read of a key, of which the transaction itself has found this. `newest` asks outside of it. Returns what the client takes it for."""
        taken, did = found, self.wrong
        if key not in self.written:
            if did == "cache":
                taken = self.cache.get(key, found)
            elif did == "outside":
                taken = newest(key)
            else:
                self.cache[key] = found
            if found is not None and found // 4096 in self.faults.misjudged:
                did, taken = "misjudged", found
                self.note(did, key, found, None)
            elif taken != found:
                self.note(did, key, taken, found)
        if self.faults.stamps == "late" and newest and key not in self.written and newest(key) != found:
            self.note("late", key, found, None)
        if self.later:
            self.txn.start = self.later()
        self.done.append(("r", key, taken))
        return self.txn.read(key, taken)

    def note(self, did, key, returned, instead, place=None):
        place = len(self.done) if place is None else place
        self.notes.append(({"did": did, "id": self.txn.id, "op": place, "key": key, "returned": returned, "instead": instead}, 1))

    def read_unlocked(self, key, taken):
        """A read without the transaction's lock: whether that matters is known once the key is locked."""
        self.unlocked.append((len(self.done), key, taken))
        self.done.append(("r", key, taken))
        self.txn.read(key, taken)

    def read_again(self, ask):
        """Behind the commit: what was read and is gone already looks old where the stamp is asked for now."""
        for place, (letter, key, value) in enumerate(self.done):
            if letter == "r" and ask(key) != value:
                self.note("late", key, value, None, place)

    def lock(self, ask):
        """Right before the commit: what `ask` now finds under a lock is what was there to be read."""
        for place, key, taken in self.unlocked:
            found = self.replaced[key] if key in self.replaced else ask(key)
            if found != taken:
                self.note("unlocked", key, taken, found, place)

    def write(self, key):
        """A write of a key. Returns the value for the database."""
        self.written[key] = self.txn.write(key)
        self.done.append(("w", key, self.written[key]))
        return self.written[key]

    def replaces(self, key, replaced, *seen):
        """The first write of a key replaces this value; where nobody looks for a conflict, it is also said what the snapshot shows."""
        self.replaced[key] = replaced
        note = {"did": "write", "id": self.txn.id, "key": key, "replaced": replaced}
        if seen:
            note["seen"] = seen[0]
        self.notes.append((note, 1 if seen and seen[0] != replaced else 0))

    def ends(self, is_committed):
        """What became of it. Returns whether the client takes it for committed."""
        if is_committed and self.wrong != "outcome":
            self.faults.add(self.notes)
        elif not is_committed and self.wrong == "outcome":
            self.faults.misjudged.discard(self.txn.id)
        if self.wrong:
            self.faults.turn.release()
        return is_committed and self.wrong != "outcome"

    def stamp(self, commit):
        """The database's number of its commit, or the false one that is asked for."""
        return time.time_ns() if self.faults.stamps == "clock" else commit
