#!/usr/bin/env python3
"""Runs concurrent transactions against SQLite in WAL mode and logs them for sicheck.

SQLite gives no stamps and lets one transaction write at a time. So a row holds a counter: what a transaction reads of it first is
the stamp s of its snapshot, and each writer adds one to it, which is the stamp c of its commit. Another table has the id of each writer
with c, which tells later whether a commit happened whose answer was lost.

With --fault unchecked a transaction reads in one connection and writes in another one, as a pool of them may hand it out.
"""
import os
import sqlite3
import sys
import tempfile

sys.path.insert(0, os.path.join(os.path.dirname(os.path.abspath(__file__)), ".."))
import injected  # noqa: E402
import trial  # noqa: E402 (it knows where the package is)
import sicheck  # noqa: E402


def opened(path):
    """A connection that begins nothing by itself: Python's default begins no transaction before a SELECT."""
    return sqlite3.connect(path, timeout=60, isolation_level=None)


def one(database, query, *values):
    """What the query finds in its first row, or None where it finds none."""
    row = database.execute(query, values).fetchone()
    return row[0] if row else None


def value_of(database, key):
    return one(database, "SELECT value FROM pairs WHERE key = ?", key)


def now(database):
    return one(database, "SELECT n FROM clock")


class Client:
    """A client with its own connections, chance and log."""

    def __init__(self, path, options, faults, number):
        self.path, self.faults = path, faults
        self.plan = trial.Plan(options, number)
        self.log = sicheck.Log(sys.stdout, client=number)
        self.cache = {}

    def run(self):
        self.database, self.other = opened(self.path), opened(self.path)
        for _ in self.faults.rounds():
            self.run_transaction()
        self.database.close()
        self.other.close()

    def run_transaction(self):
        only_reads = self.plan.happens(0.3)
        with self.log.transaction() as txn:
            told = injected.Told(self.faults, txn, self.cache, self.faults.draw(self.plan, only_reads, one_writer=True))
            # Where all goes well one connection reads and writes.
            writer = self.other if told.wrong == "unchecked" else self.database
            self.database.execute("BEGIN" if only_reads or writer is self.other else "BEGIN IMMEDIATE")
            told.starts(now(self.database), lambda: now(self.other))
            if not only_reads and writer is self.database and self.plan.happens(0.2):
                self.roll_back_a_part(txn)
            for key, is_read in self.plan.operations(only_reads):
                if is_read:
                    found = value_of(writer if key in told.written else self.database, key)
                    told.read(key, found, lambda key: value_of(self.other, key))
                else:
                    self.write(told, writer, key)
            if txn.has_written:
                self.end_writer(told, writer)
            else:
                self.database.execute("COMMIT")
                if told.ends(True):
                    txn.commit()
                else:
                    txn.abort()

    def write(self, told, writer, key):
        if not writer.in_transaction:
            writer.execute("BEGIN IMMEDIATE")
        if key not in told.written:
            told.replaces(key, value_of(writer, key), *([value_of(self.database, key)] if writer is self.other else []))
        writer.execute("INSERT INTO pairs VALUES (?, ?) ON CONFLICT (key) DO UPDATE SET value = excluded.value", (key, told.write(key)))

    def roll_back_a_part(self, txn):
        """A savepoint that is rolled back."""
        self.database.execute("SAVEPOINT part")
        with txn.savepoint() as part:
            self.database.execute("INSERT OR REPLACE INTO pairs VALUES ('k0', ?)", (part.write("k0"),))
            part.roll_back()
        self.database.execute("ROLLBACK TO part")
        self.database.execute("RELEASE part")

    def end_writer(self, told, writer):
        """Commits or rolls back. Now and then the answer is lost, and what became of it is looked up later."""
        commit = writer.execute("UPDATE clock SET n = n + 1 RETURNING n").fetchone()[0]
        writer.execute("INSERT INTO done VALUES (?, ?)", (told.txn.id, commit))
        ends_well = self.plan.happens(0.9)
        writer.execute("COMMIT" if ends_well else "ROLLBACK")
        if writer is self.other:
            self.database.execute("COMMIT")
        is_taken_for_committed = told.ends(ends_well)
        if not told.wrong and not self.faults.stamps and self.plan.happens(0.1):
            told.txn.in_doubt()
        elif is_taken_for_committed:
            told.txn.commit(told.stamp(commit))
        else:
            told.txn.abort()

    def settle(self):
        """What became of the transactions in doubt, once the client is gone."""
        database = opened(self.path)
        for number in self.log.doubts:
            commit = one(database, "SELECT c FROM done WHERE id = ?", number)
            if commit is None:
                self.log.resolve(number, aborted=True)
            else:
                self.log.resolve(number, commit=commit)
        database.close()


def prepared(path, options):
    """Makes the tables, with values from before the run."""
    database = opened(path)
    database.execute("PRAGMA journal_mode = WAL")
    database.executescript(
        "CREATE TABLE pairs(key TEXT PRIMARY KEY, value INTEGER NOT NULL);"
        "CREATE TABLE clock(n INTEGER NOT NULL); INSERT INTO clock VALUES (0);"
        "CREATE TABLE done(id INTEGER PRIMARY KEY, c INTEGER NOT NULL);")
    database.executemany("INSERT INTO pairs VALUES (?, ?)", trial.set_up_values(options))
    database.close()


def main():
    words = trial.parser(__doc__)
    injected.add_options(words, "cache", "outside", "unchecked", "outcome")
    options = words.parse_args()
    faults = injected.Faults(options)
    with tempfile.TemporaryDirectory() as room:
        path = os.path.join(room, "pairs.db")
        prepared(path, options)
        clients = [Client(path, options, faults, number) for number in range(1, options.clients + 1)]
        for key, value in trial.set_up_values(options):
            clients[0].log.set_up(key, value)
        trial.run_all(clients)
        for client in clients:
            client.settle()


main()
