#!/usr/bin/env python3
"""Runs concurrent transactions against MariaDB and logs them for sicheck in the order of their commits.

At SERIALIZABLE MariaDB locks what is read until the commit, and reads the newest version: it keeps no snapshot, but is the serial run of
its transactions in the order of their commits. That order is the one of the binary log. So a writer has the number c of its commit
there, by @@last_gtid; a reader asks at its end, while it holds its locks, for the last number s in the log. At another level a reader
holds no locks and has no such place, so there the transactions that only read aren't logged.

With --fault unlocked some reads are asked for in another session, which locks nothing until the commit. With --stamps late a reader asks
for the number once it holds no locks any more.

The server needs log-bin and binlog-format=ROW.
"""
import os
import sys
import time

sys.path.insert(0, os.path.join(os.path.dirname(os.path.abspath(__file__)), ".."))
import injected  # noqa: E402
import trial  # noqa: E402 (it knows where the package is)
import sicheck  # noqa: E402
from session import Refused, Session, add_options  # noqa: E402


class Client:
    """A client with its own sessions, chance and log."""

    def __init__(self, options, faults, number):
        self.options, self.faults = options, faults
        self.plan = trial.Plan(options, number)
        self.log = sicheck.Log(sys.stdout, client=number, stamps=sicheck.COMMIT_ORDER)
        self.locks_reads = options.level.lower() == "serializable"
        self.cache = {}

    def run(self):
        self.session, self.other = Session(self.options), Session(self.options)
        self.session.ask(f"SET SESSION TRANSACTION ISOLATION LEVEL {self.options.level}")
        for _ in self.faults.rounds():
            self.run_transaction()
        self.session.end()
        self.other.end()

    def run_transaction(self):
        only_reads = self.locks_reads and self.plan.happens(0.3)
        told = injected.Told(self.faults, self.log.transaction(), self.cache, self.faults.draw(self.plan, only_reads))
        last = None
        try:
            self.operate(told, only_reads)
            last = self.session.number("@@GLOBAL.gtid_binlog_pos")
            if self.plan.happens(0.1):
                raise Refused("a change of mind")
            self.session.ask("COMMIT")
            is_committed = True
        except Refused:
            self.session.ask("ROLLBACK")
            is_committed = False
        if is_committed and told.written:
            last = self.session.number("@@last_gtid")
        elif is_committed and self.options.stamps == "late":
            time.sleep(0.005)
            told.read_again(self.session.value)
            last = self.session.number("@@GLOBAL.gtid_binlog_pos")
        if not told.ends(is_committed):
            told.txn.abort()
        elif told.written or self.locks_reads:
            told.txn.commit(told.stamp(last))

    def operate(self, told, only_reads):
        self.session.ask("START TRANSACTION")
        for key, is_read in self.plan.operations(only_reads):
            if is_read and told.wrong == "unlocked" and key not in told.written:
                told.read_unlocked(key, self.other.value(key))
            elif is_read:
                told.read(key, self.session.value(key))
            else:
                if self.options.notes and key not in told.written:
                    told.replaces(key, self.session.value(key, " FOR UPDATE"))
                self.session.put(key, told.write(key))
        told.lock(self.session.value)


def main():
    words = trial.parser(__doc__)
    add_options(words)
    words.add_argument("--level", default="serializable", help="the isolation level, as MariaDB names it")
    injected.add_options(words, "cache", "unlocked", "outcome")
    options = words.parse_args()
    faults = injected.Faults(options)
    values = trial.set_up_values(options)
    Session(options).make_table(values)
    clients = [Client(options, faults, number) for number in range(1, options.clients + 1)]
    for key, value in values:
        clients[0].log.set_up(key, value)
    trial.run_all(clients)


main()
