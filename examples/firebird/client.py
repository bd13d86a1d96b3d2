#!/usr/bin/env python3
"""Runs concurrent transactions against Firebird and logs them for sicheck, after the run.

Firebird gives its clients no stamps, and lets several transactions write at once. So each client has a row in the table that is tested, to
which each of its writers writes its own id, and each transaction reads the rows of all clients first. They tell which writers its snapshot
sees, and after the run in which order these committed; see `numbers_by_snapshots`. Where no snapshot tells of two writers which came first,
they stand in the order of a counter that each draws right before its commit, while it holds the rows that it wrote: where one overwrote the
other unseen, that is the order of their versions. The row also tells whether a commit happened whose answer was lost.

The server is reached through isql-fb, with the usual variables: ISC_USER, ISC_PASSWORD. With --level another level is asked for; at READ
COMMITTED each statement has a snapshot of its own. With --fault unchecked a transaction writes in another session than it reads in, at READ
COMMITTED, as a pool of them may hand it out.
"""
import itertools
import os
import subprocess
import sys
import time

sys.path.insert(0, os.path.join(os.path.dirname(os.path.abspath(__file__)), ".."))
import injected  # noqa: E402
import trial  # noqa: E402 (it knows where the package is)
import sicheck  # noqa: E402


class Refused(RuntimeError):
    """The server answered with an error."""


class Session:
    """One isql-fb, which is given statements and answers with the words of rows."""

    MARK = "Client SQL dialect is set to: 3 and database SQL dialect is: 3"  # behind each answer; it asks the server for nothing

    def __init__(self, database):
        self.program = subprocess.Popen(["isql-fb", "-q", "-m", database], stdin=subprocess.PIPE, stdout=subprocess.PIPE,
                                        stderr=subprocess.STDOUT, text=True, bufsize=1)
        self.ask("SET HEADING OFF")

    def ask(self, statement):
        self.program.stdin.write(statement + ";\nSHOW SQL DIALECT;\n")
        lines = []
        while (line := self.program.stdout.readline()).strip() != self.MARK:
            if not line:
                raise SystemExit("isql-fb ended: " + "".join(lines))
            if line.strip():
                lines.append(line)
        if any(line.startswith("Statement failed") for line in lines):
            raise Refused("".join(lines))
        return [line.split() for line in lines]

    def value(self, key, suffix=""):
        found = self.ask(f"SELECT val FROM pairs WHERE name = '{key}'{suffix}")
        return int(found[0][0]) if found else None

    def newest(self, key):
        """The key's value in a transaction of its own, which begins now: by itself isql-fb begins one as soon as the last one has ended."""
        self.ask(NOW)
        found = self.value(key)
        self.ask("COMMIT")
        return found

    def rows(self):
        """The last id of each client, as the transaction sees it."""
        rows = self.ask(f"SELECT name, val FROM pairs WHERE name STARTING WITH '{ROW}'")
        return {int(name[len(ROW):]): int(last) for name, last in rows}

    def end(self):
        self.program.stdin.close()
        self.program.wait()
        self.program.stdout.close()


ROW = "writer-"
NOW = "SET TRANSACTION SNAPSHOT NO WAIT"


class Client:
    """A client with its own sessions, chance and log."""

    order = itertools.count()  # of all clients, which are threads: which of two commits was sent first

    def __init__(self, options, faults, number):
        self.options, self.faults, self.number = options, faults, number
        self.plan = trial.Plan(options, number)
        self.log = sicheck.Log(sys.stdout, client=number)
        self.cache = {}
        self.seen = {}  # by transaction: the rows of the clients, as its snapshot has them
        self.committed = {}  # by transaction: its place in the order of the commits that were sent
        self.times = {}  # by transaction: when it began and ended, by a clock

    def run(self):
        self.session, self.other = Session(self.options.database), Session(self.options.database)
        for _ in self.faults.rounds():
            self.run_transaction()
        self.session.end()
        self.other.end()

    def run_transaction(self):
        only_reads = self.plan.happens(0.3)
        txn, wrong = self.log.transaction(), self.faults.draw(self.plan, only_reads)
        told = injected.Told(self.faults, txn, self.cache, wrong)
        writer = self.other if wrong == "unchecked" else self.session
        place = None
        self.session.ask(f"SET TRANSACTION {self.options.level} NO WAIT")
        if writer is self.other:
            writer.ask("SET TRANSACTION READ COMMITTED RECORD_VERSION NO WAIT")
        try:
            begun = self.operate(told, writer, only_reads)
            place = next(self.order)
            writer.ask("COMMIT")
        except Refused:
            writer.ask("ROLLBACK")
            place = None
        if writer is self.other:
            self.session.ask("COMMIT")
        if told.ends(place is not None):
            self.committed[txn], self.times[txn] = place, (begun, time.time_ns())
        else:
            txn.abort()

    def operate(self, told, writer, only_reads):
        self.seen[told.txn], begun = self.session.rows(), time.time_ns()
        for key, is_read in self.plan.operations(only_reads):
            if is_read:
                told.read(key, (writer if key in told.written else self.session).value(key), self.other.newest)
                if self.options.stamps == "late":
                    self.other.ask(NOW)
                    self.seen[told.txn] = self.other.rows()
                    self.other.ask("COMMIT")
                continue
            if self.options.notes and key not in told.written:
                told.replaces(key, writer.value(key, " WITH LOCK"), *([] if writer is self.session else [self.session.value(key)]))
            writer.ask(f"UPDATE OR INSERT INTO pairs VALUES ('{key}', {told.write(key)}) MATCHING (name)")
        if told.written:
            writer.ask(f"UPDATE pairs SET val = {told.txn.id} WHERE name = '{ROW}{self.number}'")
        return begun


def log_all(clients):
    """Logs what committed, once it is known who saw whom. Returns the snapshots that contradict each other."""
    seen = {txn.id: rows for client in clients for txn, rows in client.seen.items()}
    committed = {txn: place for client in clients for txn, place in client.committed.items()}
    writers = [txn.id for txn in sorted(committed, key=committed.get) if txn.has_written]
    starts, commits, forks = sicheck.numbers_by_snapshots(
        {number: lambda writer, rows=rows: rows[sicheck.client_of(writer)] >= writer for number, rows in seen.items()}, writers)
    for txn in committed:
        txn.start = starts[txn.id]
        txn.commit(commits.get(txn.id))
    return forks


def log_by_clock(clients):
    """Logs what committed by the clients' clock: wrong."""
    for client in clients:
        for txn, (begun, ended) in client.times.items():
            txn.start = begun
            txn.commit(ended)
    return ()


def main():
    words = trial.parser(__doc__)
    words.add_argument("--database", required=True, help="as localhost/3050:/tmp/test.fdb; tables are made anew in it")
    words.add_argument("--level", default="SNAPSHOT", help="the isolation level, as READ COMMITTED RECORD_VERSION")
    injected.add_options(words, "cache", "outside", "unchecked", "outcome")
    options = words.parse_args()
    faults = injected.Faults(options)
    session = Session(options.database)
    session.ask("SET AUTODDL ON")
    session.ask("RECREATE TABLE pairs (name VARCHAR(32) PRIMARY KEY, val BIGINT NOT NULL)")
    clients = [Client(options, faults, number) for number in range(1, options.clients + 1)]
    for client in clients:
        session.ask(f"INSERT INTO pairs VALUES ('{ROW}{client.number}', 0)")
    for key, value in trial.set_up_values(options):
        session.ask(f"INSERT INTO pairs VALUES ('{key}', {value})")
        clients[0].log.set_up(key, value)
    session.ask("COMMIT")
    trial.run_all(clients)
    trial.end_with(log_by_clock(clients) if options.stamps == "clock" else log_all(clients))


main()
