#!/usr/bin/env python3
"""Runs concurrent transactions against MariaDB's snapshots and logs them for sicheck.

The stamps are the numbers of the GTIDs in the binary log. A commit has its number in @@last_gtid. A snapshot that is taken by START
TRANSACTION WITH CONSISTENT SNAPSHOT knows its place in the binary log: the session's status Binlog_snapshot_file and
Binlog_snapshot_position, of which BINLOG_GTID_POS makes the number of the last commit that it sees. In 10.11.19 sessions that ask
for their status at once may be told another session's place, so they ask one at a time, under GET_LOCK.

At REPEATABLE READ, the default, MariaDB loses updates; with innodb_snapshot_isolation=ON, which is the default here, it is
snapshot isolation. With --fault unchecked that is off in some transactions, with --level another level is asked for. With --stamps late
the start is @@GLOBAL.gtid_binlog_pos, asked for after the snapshot was taken, which is false.

The server needs log-bin and binlog-format=ROW.
"""
import os
import sys

sys.path.insert(0, os.path.join(os.path.dirname(os.path.abspath(__file__)), ".."))
import injected  # noqa: E402
import trial  # noqa: E402 (it knows where the package is)
import sicheck  # noqa: E402
from session import Refused, Session, add_options  # noqa: E402


class Client:
    """A client with its own sessions, chance and log."""

    def __init__(self, options, faults, number):
        self.options, self.faults = options, faults
        self.plan = trial.Plan(options, number)
        self.log = sicheck.Log(sys.stdout, client=number)
        self.cache = {}

    def run(self):
        self.session, self.other = Session(self.options), Session(self.options)
        self.session.ask(f"SET SESSION TRANSACTION ISOLATION LEVEL {self.options.level}")
        self.look_for_conflicts(not self.options.lost)
        for _ in self.faults.rounds():
            self.run_transaction()
        self.session.end()
        self.other.end()

    def look_for_conflicts(self, is_on):
        self.session.ask(f"SET SESSION innodb_snapshot_isolation = {'ON' if is_on else 'OFF'}")

    def start(self):
        """The number of the last commit that the snapshot sees."""
        self.session.ask("SELECT GET_LOCK('snapshot place', 60)")
        place = dict(line.split("\t") for line in self.session.ask("SHOW SESSION STATUS LIKE 'Binlog_snapshot_%'"))
        self.session.ask("SELECT RELEASE_LOCK('snapshot place')")
        return self.session.number(f"BINLOG_GTID_POS('{place['Binlog_snapshot_file']}', {place['Binlog_snapshot_position']})")

    def run_transaction(self):
        only_reads = self.plan.happens(0.3)
        wrong = self.faults.draw(self.plan, only_reads)
        told = injected.Told(self.faults, self.log.transaction(), self.cache, wrong)
        if wrong == "unchecked":
            self.look_for_conflicts(False)
        try:
            self.operate(told, only_reads)
            self.session.ask("COMMIT")
            is_committed = True
        except Refused:
            self.session.ask("ROLLBACK")
            is_committed = False
        commit = self.session.number("@@last_gtid") if is_committed and told.written else None
        if wrong == "unchecked":
            self.look_for_conflicts(True)
        if told.ends(is_committed):
            told.txn.commit(commit and told.stamp(commit))
        else:
            told.txn.abort()

    def operate(self, told, only_reads):
        self.session.ask("START TRANSACTION WITH CONSISTENT SNAPSHOT")
        told.starts(self.start(), lambda: self.session.number("@@GLOBAL.gtid_binlog_pos"))
        for key, is_read in self.plan.operations(only_reads):
            if is_read:
                told.read(key, self.session.value(key), self.other.value)
            else:
                if self.options.notes and key not in told.written:
                    self.note_replaced(told, key)
                self.session.put(key, told.write(key))
        if self.plan.happens(0.1):
            raise Refused("a change of mind")

    def note_replaced(self, told, key):
        seen = [self.session.value(key)] if told.wrong == "unchecked" else []
        told.replaces(key, self.session.value(key, " FOR UPDATE"), *seen)


def main():
    words = trial.parser(__doc__)
    add_options(words)
    words.add_argument("--level", default="repeatable read", help="the isolation level, as MariaDB names it")
    words.add_argument("--lost", action="store_true", help="innodb_snapshot_isolation is off, the default of 10.11.19")
    injected.add_options(words, "cache", "outside", "unchecked", "outcome")
    options = words.parse_args()
    values = trial.set_up_values(options)
    Session(options).make_table(values)
    faults = injected.Faults(options)
    clients = [Client(options, faults, number) for number in range(1, options.clients + 1)]
    for key, value in values:
        clients[0].log.set_up(key, value)
    trial.run_all(clients)


main()
