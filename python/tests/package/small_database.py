"""For tests: a database in memory with snapshots, and clients that work on it by chance and log what they do."""
import random
import sqlite3
import threading
import time

import sicheck


class Database:
    """Values by key and number of commit. A snapshot at s sees the commit at s. With a fault it does one thing wrong."""

    def __init__(self, fault=None):
        self.fault = fault
        self.versions = {}  # by key: pairs of a commit and a value, in order
        self.last = 0
        self.guard = threading.Lock()

    def begin(self):
        with self.guard:
            return self.last

    def read(self, key, snapshot):
        """The value at the snapshot; with the fault `newest` the newest there is."""
        with self.guard:
            at = self.last if self.fault == "newest" else snapshot
            return next((value for commit, value in reversed(self.versions.get(key, [])) if commit <= at), None)

    def commit(self, writes, snapshot):
        """The number of the commit, or None where somebody overwrote one of the keys first; with the fault `lost` nobody looks."""
        with self.guard:
            if self.fault != "lost" and any(self.versions.get(key, [(0, None)])[-1][0] > snapshot for key in writes):
                return None
            self.last += 1
            for key, value in writes.items():
                self.versions.setdefault(key, []).append((self.last, value))
            return self.last


class StoredDatabase:
    """The same in a file, and without a fault: what is committed outlives a client that is killed."""

    def __init__(self, path):
        self.rows = sqlite3.connect(path, isolation_level=None, timeout=60)
        self.rows.execute("CREATE TABLE IF NOT EXISTS versions(key TEXT, number INTEGER, value INTEGER, writer INTEGER)")

    def one(self, query, *values):
        row = self.rows.execute(query, values).fetchone()
        return row[0] if row else None

    def begin(self):
        return self.one("SELECT coalesce(max(number), 0) FROM versions")

    def read(self, key, snapshot):
        return self.one("SELECT value FROM versions WHERE key = ? AND number <= ? ORDER BY number DESC LIMIT 1", key, snapshot)

    def commit(self, writes, snapshot, writer):
        """The number of the commit; nobody else writes at the same time."""
        self.rows.execute("BEGIN IMMEDIATE")
        number = self.begin() + 1
        self.rows.executemany("INSERT INTO versions VALUES (?, ?, ?, ?)", [(key, number, value, writer) for key, value in writes.items()])
        self.rows.execute("COMMIT")
        return number

    def commit_of(self, writer):
        """The number of the commit of the transaction, or None where it didn't commit."""
        return self.one("SELECT number FROM versions WHERE writer = ?", writer)


def run_client(database, log, seed, transactions, keys=4, pause=0.0):
    """Transactions of one client, some of which are rolled back, are in doubt for a while, or roll a part back."""
    chance = random.Random(seed)
    for _ in range(transactions):
        snapshot = database.begin()
        with log.transaction(snapshot) as txn:
            writes = {}
            for _ in range(chance.randint(1, 4)):
                if pause:
                    time.sleep(pause * chance.random())  # so that several transactions are under way at once
                work(database, txn, snapshot, writes, chance, keys)
            if chance.random() < 0.2:
                before = dict(writes)
                with txn.savepoint() as part:
                    work(database, part, snapshot, writes, chance, keys)
                    if chance.random() < 0.5:
                        part.roll_back()
                        writes = before
            end(database, txn, snapshot, writes, chance)


def work(database, txn, snapshot, writes, chance, keys):
    key = f"k{chance.randrange(keys)}"
    if chance.random() < 0.5:
        txn.read(key, writes[key] if key in writes else database.read(key, snapshot))
    else:
        writes[key] = txn.write(key)


def end(database, txn, snapshot, writes, chance):
    if not writes:
        txn.commit()
        return
    if chance.random() < 0.1:
        txn.abort()
        return
    if chance.random() < 0.2:
        txn.in_doubt()
    number = database.commit(writes, snapshot)
    if number is None:
        txn.abort()
    else:
        txn.commit(number)


def run_clients(database, logs, transactions, keys=4, pause=0.0):
    """A thread for each log; the logs may be the same one."""
    threads = [threading.Thread(target=run_client, args=(database, log, seed, transactions, keys, pause)) for seed, log in enumerate(logs)]
    for thread in threads:
        thread.start()
    for thread in threads:
        thread.join()


class Logs(list):
    """Logs that are closed together."""

    def close(self):
        for log in self:
            log.close()

    def __enter__(self):
        return self

    def __exit__(self, *_):
        self.close()


def logs_in(folder, count, **options):
    return Logs(sicheck.Log(f"{folder}/client-{number}.jsonl", client=number, **options) for number in range(1, count + 1))


def stamp_by_rows(database, logs, transactions):
    """Clients of a database that tells no stamps: each has a row, to which its writers write their ids. They log after the run."""
    told = []  # triples of a transaction, the rows that its snapshot has, and whether it committed
    sent = {}  # by transaction: its place in the order of commits
    committing = threading.Lock()  # in the place of the locks that a writer holds on what it wrote, when it draws its place

    def end(txn, writes, snapshot):
        with committing:
            sent[txn.id] = len(sent)
            return database.commit(writes, snapshot) is not None

    def run(log):
        chance = random.Random(log.client)
        for _ in range(transactions):
            snapshot, txn, writes = database.begin(), log.transaction(), {}
            rows = {other.client: database.read(f"row/{other.client}", snapshot) or 0 for other in logs}
            for _ in range(chance.randint(1, 3)):
                time.sleep(0.0005 * chance.random())
                work(database, txn, snapshot, writes, chance, 2)
            if writes:
                writes[f"row/{log.client}"] = txn.id
            told.append((txn, rows, not writes or end(txn, writes, snapshot)))
    threads = [threading.Thread(target=run, args=(log,)) for log in logs]
    for thread in threads:
        thread.start()
    for thread in threads:
        thread.join()
    writers = [txn.id for txn, _, is_committed in told if is_committed and txn.has_written]
    starts, commits, forks = sicheck.numbers_by_snapshots(
        {txn: lambda writer, rows=rows: rows[sicheck.client_of(writer)] >= writer for txn, rows, _ in told}, sorted(writers, key=sent.get))
    for txn, _, is_committed in told:
        txn.start = starts[txn]
        if is_committed:
            txn.commit(commits.get(txn.id))
        else:
            txn.abort()
    return forks
