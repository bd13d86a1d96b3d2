/* Runs concurrent transactions against Berkeley DB and logs them for sicheck in the order of their commits.

   Berkeley DB locks what is read and written until the commit, absent keys too, since it locks their pages. So a counter of the test tells that
   order, which each transaction draws from while it holds all of its locks, right before its commit. One that is chosen to break a deadlock is
   rolled back. With --fault one transaction at a time goes wrong, and --notes tells how: `cache` reads from a cache that nobody clears, `unlocked`
   reads and gives the lock up at once, `outcome` takes commits for rollbacks. With --stamps late the counter is drawn behind the commit, which is
   false; with --stamps clock it is a clock, read before the commit. */
#include "trial.h"
#include <db.h>
#include <dirent.h>

static DB_ENV *env;
static DB *db;

static void must(int fault, const char *what) {
  if (fault) {
    fprintf(stderr, "%s: %s\n", what, db_strerror(fault));
    exit(1);
  }
}

static int get(DB_TXN *txn, int key, uint32_t flags, Value *value) {
  char name[16];
  DBT k = {.data = name, .size = (uint32_t)name_of(key, name)};
  DBT v = {.data = &value->it, .ulen = sizeof value->it, .flags = DB_DBT_USERMEM};
  int fault = db->get(db, txn, &k, &v, flags);
  value->there = !fault;
  return fault == DB_NOTFOUND ? 0 : fault;
}

static int put(DB_TXN *txn, int key, uint64_t value) {
  char name[16];
  DBT k = {.data = name, .size = (uint32_t)name_of(key, name)}, v = {.data = &value, .size = sizeof value};
  return db->put(db, txn, &k, &v, 0);
}

static int read_one(Client *client, Told *told, DB_TXN *txn, int key) {
  char name[16];
  Value found;
  bool is_unlocked = told->goes_wrong && is(options.fault, "unlocked") && !told->is_written[key];
  int fault = get(txn, key, is_unlocked ? DB_READ_COMMITTED : 0, &found);
  if (fault) return fault;
  if (is_unlocked) {
    told->unlocked[told->ops] = key + 1;
    told->taken[told->ops] = found;
  } else {
    found = taken(client, told, key, found);
  }
  line_read(&told->line, name, name_of(key, name), found.there ? &found.it : NULL);
  return 0;
}

static int write_one(Told *told, DB_TXN *txn, int key) {
  char name[16];
  Value replaced;
  uint64_t value = told->id * 4096 + (uint64_t)told->ops;
  int fault = told->is_written[key] ? 0 : get(txn, key, DB_RMW, &replaced);
  if (fault) return fault;
  if (!told->is_written[key]) note_replaced(told, key, replaced);
  told->is_written[key] = true;
  line_write(&told->line, name, name_of(key, name), value);
  return put(txn, key, value);
}

/* Reads and writes; at the end what was read without a lock is locked, which tells whether that mattered. */
static int operate(Client *client, Told *told, DB_TXN *txn, bool only_reads) {
  int fault = 0;
  for (int count = 2 + below(client, MOST_OPS - 1); told->ops < count && !fault; told->ops++) {
    usleep((unsigned)below(client, 2000));
    int key = below(client, options.keys);
    fault = only_reads || happens(client, 0.5) ? read_one(client, told, txn, key) : write_one(told, txn, key);
  }
  for (int op = 0; op < MOST_OPS && !fault; op++) {
    int key = told->unlocked[op] - 1;
    if (key < 0) continue;
    Value found = told->replaced[key];
    if (!told->is_written[key]) fault = get(txn, key, 0, &found);
    if (!fault && !same(found, told->taken[op])) note(told, "unlocked", op, key, told->taken[op], found);
  }
  return fault;
}

static void run_transaction(Client *client, int count) {
  Told told = {0};
  DB_TXN *txn;
  bool only_reads = happens(client, 0.3), is_writer = false;
  uint64_t commit = 0;
  begin(client, &told, count, only_reads);
  must(env->txn_begin(env, NULL, &txn, 0), "begin");
  int fault = operate(client, &told, txn, only_reads);
  if (fault && fault != DB_LOCK_DEADLOCK) must(fault, "operation");
  bool is_committed = !fault && !happens(client, 0.05);
  if (is_committed) {
    if (!is(options.stamps, "late")) commit = drawn();
    must(txn->commit(txn, 0), "commit");
    if (is(options.stamps, "late")) usleep((unsigned)below(client, 5000)), commit = drawn();
  } else {
    must(txn->abort(txn), "abort");
  }
  for (int key = 0; key < options.keys; key++) is_writer |= told.is_written[key];
  if (!ends(&told, is_committed)) fault = line_unfinished(&told.line, 1, told.id, 0, "aborted");
  else if (is_writer) fault = line_committed(&told.line, 1, told.id, 2 * commit, 2 * commit + 1);
  else fault = line_committed(&told.line, 1, told.id, 2 * commit + 2, 2 * commit + 2);
  must(fault ? errno : 0, "log");
}

static void *run_client(void *it) {
  for (int count = 1; goes_on(count - 1); count++) run_transaction(it, count);
  return NULL;
}

static void set_up(const char *room) {
  must(db_env_create(&env, 0), "environment");
  must(env->set_lk_detect(env, DB_LOCK_DEFAULT), "deadlocks");
  must(env->set_flags(env, DB_TXN_NOSYNC, 1), "no sync");
  must(env->open(env, room, DB_CREATE | DB_INIT_LOCK | DB_INIT_LOG | DB_INIT_MPOOL | DB_INIT_TXN | DB_THREAD | DB_PRIVATE, 0600), "environment");
  must(db_create(&db, env, 0), "database");
  must(db->open(db, NULL, "pairs.db", NULL, DB_BTREE, DB_CREATE | DB_AUTO_COMMIT | DB_THREAD, 0600), "database");
  for (int key = 0; key < options.keys; key += 2) { /* the others have no value from before the run */
    char name[16];
    must(put(NULL, key, (uint64_t)key), "value");
    must(line_setup(1, name, name_of(key, name), (uint64_t)key), "log");
  }
}

int main(int count, char **words) {
  char room[200], file[500];
  take_options(count, words);
  snprintf(room, sizeof room, "%s/bdb-XXXXXX", getenv("TMPDIR") ? getenv("TMPDIR") : "/tmp");
  if (!mkdtemp(room)) must(errno, "folder");
  set_up(room);
  Client clients[options.clients];
  pthread_t threads[options.clients];
  for (int it = 0; it < options.clients; it++) {
    clients[it] = (Client){.number = it + 1, .chance = {(unsigned short)(options.seed * 100 + it), 7, 7}};
    must(pthread_create(&threads[it], NULL, run_client, &clients[it]), "thread");
  }
  for (int it = 0; it < options.clients; it++) pthread_join(threads[it], NULL);
  must(db->close(db, 0), "close");
  must(env->close(env, 0), "close");
  DIR *folder = opendir(room);
  for (struct dirent *it; folder && (it = readdir(folder));)
    if (snprintf(file, sizeof file, "%s/%s", room, it->d_name) > 0) unlink(file);
  return folder && !closedir(folder) && !rmdir(room) ? 0 : 1;
}
