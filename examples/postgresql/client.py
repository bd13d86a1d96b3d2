#!/usr/bin/env python3
"""Runs concurrent transactions against PostgreSQL and logs them for sicheck, after the run.

PostgreSQL gives its clients no stamps. Each transaction here notes the snapshot that it reads from, by
pg_current_snapshot(), and a writer its transaction id. When all are done, the snapshots say in which order the writers
committed: see stamp_all() below. With --stamps clock the stamps are a clock's instead, which is wrong, and shows how wrong.
With --fault unchecked a transaction writes in another session than it reads in, as a pool of them may hand it out.

The server is reached through psql, with the usual variables: PGHOST, PGPORT, PGUSER.
"""
import itertools
import os
import subprocess
import sys
import time

sys.path.insert(0, os.path.join(os.path.dirname(os.path.abspath(__file__)), ".."))
import injected  # noqa: E402
import trial  # noqa: E402 (it knows where the package is)
import sicheck  # noqa: E402


class Refused(RuntimeError):
    """The server answered with an error."""


class Session:
    """One psql, which is given statements and answers with lines."""

    def __init__(self):
        self.psql = subprocess.Popen(["psql", "-qAtX"], stdin=subprocess.PIPE, stdout=subprocess.PIPE,
                                     stderr=subprocess.STDOUT, text=True, bufsize=1)

    def ask(self, statement):
        self.psql.stdin.write(statement + ";\n\\echo =done=\n")
        lines = []
        while (line := self.psql.stdout.readline()) != "=done=\n":
            if not line:
                raise SystemExit("psql ended: " + "".join(lines))
            lines.append(line.rstrip("\n"))
        if any(line.startswith("ERROR") for line in lines):
            raise Refused("\n".join(lines))
        return lines

    def snapshot(self):
        return self.ask("select pg_current_snapshot()")[0]

    def value(self, key, suffix=""):
        found = self.ask(f"select value from pairs where key = '{key}'{suffix}")
        return int(found[0]) if found else None

    def put(self, key, value, is_new=False):
        """Writes the key; one that is known to be new has to be so still."""
        self.ask(f"insert into pairs values ('{key}', {value})" + ("" if is_new else f" on conflict (key) do update set value = {value}"))

    def end(self):
        self.psql.stdin.close()
        self.psql.wait()
        self.psql.stdout.close()


class Told(injected.Told):
    """A transaction whose stamps aren't known yet, with what they are made of."""

    xid, snapshot, is_committed = None, None, False
    place = 0  # in the order of the commits that were sent
    after = done = 0  # by a clock

    @property
    def is_writer(self):
        return self.is_committed and self.xid is not None

    def sees(self, xid):
        """Whether its snapshot, as xmin:xmax:ids, sees the transaction, if that committed."""
        _, most, running = self.snapshot.split(":")
        return xid < int(most) and str(xid) not in running.split(",")


class Client:
    """A client with its own sessions, chance and log."""

    order = itertools.count()  # of all clients, which are threads: which of two commits was sent first

    def __init__(self, options, faults, number):
        self.options, self.faults = options, faults
        self.plan = trial.Plan(options, number)
        self.log = sicheck.Log(sys.stdout, client=number)
        self.told, self.cache = [], {}

    def run(self):
        self.session, self.other = Session(), Session()
        for _ in self.faults.rounds():
            only_reads = self.plan.happens(0.3)
            told = Told(self.faults, self.log.transaction(), self.cache, self.faults.draw(self.plan, only_reads))
            self.run_transaction(told, only_reads)
            self.told.append(told)
        self.session.end()
        self.other.end()

    def run_transaction(self, told, only_reads):
        sessions = [self.session]
        self.session.ask(f"begin isolation level {self.options.level}")
        if told.wrong == "unchecked":
            sessions.append(self.other)
            self.other.ask("begin isolation level read committed")
        try:
            told.snapshot, told.after = self.session.snapshot(), time.time_ns()
            for key, is_read in self.plan.operations(only_reads):
                self.operate(told, sessions[-1], key, is_read)
            xid = sessions[-1].ask("select pg_current_xact_id_if_assigned()")
            told.xid = int(xid[0]) if xid and xid[0] and told.written else None
            told.place = next(self.order)
            for session in reversed(sessions):
                session.ask("commit")
            told.is_committed = True
        except Refused:
            for session in sessions:
                session.ask("rollback")
        told.done = time.time_ns()
        told.is_committed = told.ends(told.is_committed)

    def operate(self, told, writer, key, is_read):
        if is_read:
            told.read(key, (writer if key in told.written else self.session).value(key), self.other.value)
            if self.options.stamps == "late":
                told.snapshot = self.other.snapshot()
            return
        is_new = False
        if self.options.notes and key not in told.written:
            replaced = writer.value(key, " for update")
            is_new = replaced is None
            told.replaces(key, replaced, *([] if writer is self.session else [self.session.value(key)]))
        writer.put(key, told.write(key), is_new)


def stamp_all(record):
    """Stamps by snapshots: `numbers_by_snapshots` says how. Where no snapshot tells of two writers which came first, they stand in the order in
    which their commits were sent: each still had its rows locked then, so where one overwrote the other unseen, that is the order of their
    versions. Returns the commits, and the snapshots that contradict each other."""
    writers = [told.xid for told in sorted(record, key=lambda told: told.place) if told.is_writer]
    known = {told.txn.id: told for told in record if told.snapshot}
    starts, commits, forks = sicheck.numbers_by_snapshots({number: told.sees for number, told in known.items()}, writers)
    for number, start in starts.items():
        known[number].txn.start = start
    return {told: commits.get(told.xid) for told in record}, forks


def stamp_by_clock(record):
    """Stamps by the client's clock: wrong."""
    for told in record:
        told.txn.start = told.after
    return {told: told.done for told in record}, ()


def main():
    words = trial.parser(__doc__, clients=6, transactions=200)
    words.add_argument("--level", default="repeatable read", help="the isolation level")
    injected.add_options(words, "cache", "outside", "unchecked", "outcome")
    options = words.parse_args()
    faults = injected.Faults(options)
    session = Session()
    session.ask("drop table if exists pairs")
    session.ask("create table pairs (key text primary key, value bigint not null)")
    clients = [Client(options, faults, number) for number in range(1, options.clients + 1)]
    for key, value in trial.set_up_values(options):
        session.put(key, value)
        clients[0].log.set_up(key, value)
    trial.run_all(clients)
    record = [told for client in clients for told in client.told]
    commits, forks = stamp_by_clock(record) if options.stamps == "clock" else stamp_all(record)
    for told in record:
        if told.is_committed:
            told.txn.commit(commits[told])
        else:
            told.txn.abort()
    trial.end_with(forks)


main()
