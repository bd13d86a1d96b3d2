#!/usr/bin/env python3
"""Runs concurrent snapshot-isolation transactions against etcd and logs them for sicheck.

A transaction takes its snapshot at a revision s of etcd, reads at s, keeps its writes to itself, and commits in one request:
if no key that it writes was changed after s, all are put. etcd numbers that change with its next revision c. Revisions are
the stamps, and a start at s sees the commit at s.

With --fault unchecked the commit doesn't look whether its keys were changed: updates get lost.
"""
import os
import sys

sys.path.insert(0, os.path.join(os.path.dirname(os.path.abspath(__file__)), ".."))
import injected  # noqa: E402
import trial  # noqa: E402 (it knows where the package is)
import sicheck  # noqa: E402
from gateway import Etcd  # noqa: E402


class Client:
    """A client with its own connection, chance and log."""

    def __init__(self, options, faults, number):
        self.faults = faults
        self.plan = trial.Plan(options, number)
        self.etcd = Etcd(options.address)
        self.log = sicheck.Log(sys.stdout, client=number)
        self.cache = {}
        self.doubtful = []  # transactions in doubt, with what they write

    def run(self):
        for _ in self.faults.rounds():
            only_reads = self.plan.happens(0.3)
            wrong = self.faults.draw(self.plan, only_reads)
            snapshot = self.etcd.revision()
            with self.log.transaction(snapshot) as txn:
                told = injected.Told(self.faults, txn, self.cache, wrong)
                told.starts(snapshot, self.etcd.revision)
                self.end(told, snapshot, self.operate(told, snapshot, only_reads))

    def operate(self, told, snapshot, only_reads):
        """Reads at the snapshot, and writes, which are returned."""
        writes = {}
        for key, is_read in self.plan.operations(only_reads):
            key = f"run/{key}"
            if is_read:
                found = writes[key] if key in writes else self.etcd.read(key, snapshot)[0]
                told.read(key, found, lambda key: self.etcd.read(key, 0)[0])
            else:
                writes[key] = told.write(key)
        return writes

    def end(self, told, snapshot, writes):
        """Commits or rolls back. Now and then the answer is lost, and what became of it is found out later."""
        if not writes or self.plan.happens(0.05):
            if told.ends(not writes):
                told.txn.commit()
            else:
                told.txn.abort()
            return
        revision, is_lost = None, not told.wrong and not self.faults.stamps and self.plan.happens(0.04)
        try:
            revision = self.commit(told, snapshot, writes)
            if is_lost:
                raise OSError("the answer is thrown away")
        except OSError:
            told.ends(revision is not None)
            told.txn.in_doubt()
            self.doubtful.append((told.txn, writes))
            return
        if told.ends(revision is not None):
            told.txn.commit(told.stamp(revision))
        else:
            told.txn.abort()

    def commit(self, told, snapshot, writes):
        """The revision of the commit, or None where there was none."""
        is_unchecked = told.wrong == "unchecked"
        revision = self.etcd.commit(writes, None if is_unchecked else snapshot)
        for key, replaced in self.etcd.replaced.items():
            told.replaces(key, replaced, *([self.etcd.read(key, snapshot)[0]] if is_unchecked else []))
        return revision

    def settle(self):
        """Finds out what became of the transactions in doubt. A request may still be on its way, so that its values aren't there
        proves nothing. Once one of its keys is overwritten its compare fails for good, and then the key's versions tell."""
        for txn, writes in self.doubtful:
            key = next(iter(writes))
            revision = self.overwrite(key)
            while revision is not None and revision > txn.start:
                value, revision = self.etcd.read(key, revision - 1)
                if value == writes[key]:
                    txn.commit(revision)
                    break
            else:
                txn.abort()

    def overwrite(self, key):
        """Overwrites the key in a transaction of its own, and returns its revision."""
        while True:
            with self.log.transaction(self.etcd.revision()) as over:
                value = over.write(key)
                revision = self.etcd.commit({key: value}, over.start)
                if revision is None:
                    over.abort()
                else:
                    over.commit(revision)
                    return revision


def main():
    words = trial.parser(__doc__)
    words.add_argument("--address", default="127.0.0.1:2379", help="of etcd's JSON gateway")
    injected.add_options(words, "cache", "outside", "unchecked", "outcome")
    options = words.parse_args()
    faults = injected.Faults(options)
    clients = [Client(options, faults, number) for number in range(1, options.clients + 1)]
    # Every other key has a value from before the run, which the log has to tell; the others have none.
    etcd = Etcd(options.address)
    etcd.forget("run/")
    for key, value in trial.set_up_values(options):
        etcd.commit({f"run/{key}": value}, None)
        clients[0].log.set_up(f"run/{key}", value)
    trial.run_all(clients)
    for client in clients:
        client.settle()


main()
