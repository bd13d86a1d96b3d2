#!/usr/bin/env python3
"""Runs concurrent transactions against LMDB and logs them for sicheck.

LMDB numbers its write transactions, and a writer's number is that of its coming commit. Each writer puts its number under a key of
its own, which a reader reads first: that names the reader's snapshot. (A reader's own number can be older than what it reads.) A key
of the client with its last transaction, written in the same transaction, tells later whether a commit happened whose answer was lost.

With --fault unchecked a transaction reads in a read transaction, and writes in a write transaction that begins later.

It needs Python's lmdb; on Debian that is python3-lmdb, which belongs to /usr/bin/python3.
"""
import os
import sys
import tempfile

import lmdb

sys.path.insert(0, os.path.join(os.path.dirname(os.path.abspath(__file__)), ".."))
import injected  # noqa: E402
import trial  # noqa: E402 (it knows where the package is)
import sicheck  # noqa: E402

STAMP = b"stamp"  # under which each writer puts its number


def number(txn, key):
    """What stands under the key, or None."""
    found = txn.get(key.encode())
    return None if found is None else int(found)


class Client:
    """A client with its own chance and log."""

    def __init__(self, env, options, faults, number):
        self.env, self.faults = env, faults
        self.plan = trial.Plan(options, number)
        self.log = sicheck.Log(sys.stdout, client=number)
        self.name = f"last/{number}".encode()
        self.cache = {}

    def run(self):
        for _ in self.faults.rounds():
            only_reads = self.plan.happens(0.4)
            wrong = self.faults.draw(self.plan, only_reads, one_writer=True)
            if only_reads:
                self.only_read(wrong)
            elif wrong == "unchecked":
                self.write_apart(wrong)
            else:
                self.write(wrong)

    def told(self, wrong, start, stamps):
        return injected.Told(self.faults, self.log.transaction(start, stamps=stamps), self.cache, wrong)

    def newest(self, key):
        """What stands under the key in a transaction of its own."""
        with self.env.begin() as txn:
            return number(txn, key)

    def only_read(self, wrong):
        """A reader, whose snapshot sees the commit that the last writer put there."""
        with self.env.begin() as txn:
            told = self.told(wrong, int(txn.get(STAMP)), sicheck.AFTER)
            told.starts(told.txn.start, lambda: self.newest(STAMP.decode()))
            for key, _ in self.plan.operations(True):
                told.read(key, number(txn, key), self.newest)
            told.ends(True)
            told.txn.commit()

    def write(self, wrong):
        """A writer, which sees what was committed before it, and whose number is that of its commit."""
        txn = self.env.begin(write=True)
        told = self.told(wrong, txn.id(), sicheck.AT)
        told.starts(txn.id())
        if self.plan.happens(0.2):
            self.roll_back_a_part(txn, told.txn)
        for key, is_read in self.plan.operations(False):
            if is_read and told.written:
                told.read(key, number(txn, key), self.newest)
            else:
                self.put(told, txn, key)
        self.end(txn, told)

    def write_apart(self, wrong):
        """A writer whose snapshot is that of a reader: nobody looks what was written in between."""
        with self.env.begin() as reader:
            told = self.told(wrong, int(reader.get(STAMP)), sicheck.AFTER)
            for key, _ in self.plan.operations(True):
                told.read(key, number(reader, key))
            txn = self.env.begin(write=True)
            for key, _ in self.plan.operations(True):
                self.put(told, txn, key, *([] if key in told.written else [number(reader, key)]))
        self.end(txn, told)

    def put(self, told, txn, key, *seen):
        if key not in told.written:
            told.replaces(key, number(txn, key), *seen)
        txn.put(key.encode(), str(told.write(key)).encode())

    def roll_back_a_part(self, txn, told):
        """A child that is rolled back."""
        child = self.env.begin(write=True, parent=txn)
        with told.savepoint() as part:
            child.put(b"k0", str(part.write("k0")).encode())
            part.roll_back()
        child.abort()

    def end(self, txn, told):
        """Commits or rolls back, and now and then loses the answer."""
        commit, ends_well = txn.id(), self.plan.happens(0.9)
        txn.put(STAMP, str(commit).encode())
        txn.put(self.name, f"{told.txn.id} {commit}".encode())
        if ends_well:
            txn.commit()
        else:
            txn.abort()
        is_taken_for_committed = told.ends(ends_well)
        if not told.wrong and not self.faults.stamps and self.plan.happens(0.1):
            told.txn.in_doubt()
            self.settle(told.txn)
        elif is_taken_for_committed:
            told.txn.commit(told.stamp(commit))
        else:
            told.txn.abort()

    def settle(self, told):
        """What became of the last transaction, by what stands under the client's key."""
        with self.env.begin() as txn:
            last = txn.get(self.name)
        done, commit = map(int, last.split()) if last else (0, 0)
        if done == told.id:
            told.commit(commit)
        else:
            told.abort()


def main():
    words = trial.parser(__doc__)
    injected.add_options(words, "cache", "outside", "unchecked", "outcome")
    options = words.parse_args()
    faults = injected.Faults(options)
    with tempfile.TemporaryDirectory() as room, lmdb.open(room, map_size=1 << 26) as env:
        clients = [Client(env, options, faults, number) for number in range(1, options.clients + 1)]
        with env.begin(write=True) as txn:
            txn.put(STAMP, str(txn.id()).encode())
            for key, value in trial.set_up_values(options):
                txn.put(key.encode(), str(value).encode())
                clients[0].log.set_up(key, value)
        trial.run_all(clients)


main()
