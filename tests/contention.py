"""A store of snapshots in memory, and clients that share keys or don't: what a clean log of it could have found, and what is found where it is faulty.

    contention.py [--program FILE]

Six clients make transactions of four operations on one key of their own, on 6 keys that they share, or on 1,000. The store is right, or reads the
newest version in place of its snapshot's, or checks no conflicts. The rows are those of docs/LOGGING.md.
"""
import json
import os
import random
import subprocess
import sys
import tempfile

CLIENTS, TRANSACTIONS, OPERATIONS = 6, 600, 4
LAYOUTS = {"a key for each client": None, "6 keys": 6, "1,000 keys": 1000}
PROGRAM = os.path.join(os.path.dirname(os.path.realpath(__file__)), "../crates/sicheck/out/sicheck")


class Store:
    """Versions by commit number; `snapshots` and `conflicts` say what it keeps to."""

    def __init__(self, snapshots, conflicts):
        self.snapshots, self.conflicts, self.now, self.versions = snapshots, conflicts, 0, {}

    def read(self, key, snapshot):
        seen = [(number, value) for number, value in self.versions.get(key, []) if not self.snapshots or number <= snapshot]
        return seen[-1][1] if seen else None

    def commit(self, writes, snapshot):
        """The number of the commit, or None where another one wrote the key after the snapshot."""
        if self.conflicts and any(self.versions.get(key, [(0, 0)])[-1][0] > snapshot for key in writes):
            return None
        self.now += 1
        for key, value in writes.items():
            self.versions.setdefault(key, []).append((self.now, value))
        return self.now


class Client:
    """One client, whose transactions are made step by step."""

    def __init__(self, number, keys, store, chance):
        self.number, self.keys, self.store, self.chance, self.made = number, keys, store, chance, 0
        self.snapshot = None

    def key(self):
        return f"own{self.number}" if self.keys is None else f"k{self.chance.randrange(self.keys)}"

    def step(self):
        """Makes one step, and returns the transaction that it ended, if it ended one."""
        if self.snapshot is None:
            self.snapshot, self.ops, self.writes = self.store.now, [], {}
            return None
        if len(self.ops) < OPERATIONS:
            key = self.key()
            if self.chance.random() < 0.5:
                value = self.writes[key] if key in self.writes else self.store.read(key, self.snapshot)
                self.ops.append(["r", key, value])
            else:
                self.writes[key] = self.number * 1_000_000 + self.made * 10 + len(self.ops) + 1
                self.ops.append(["w", key, self.writes[key]])
            return None
        line = {"do": "txn", "id": self.number * 100_000 + self.made, "start": 2 * self.snapshot + 2, "status": "aborted", "ops": self.ops}
        commit = self.store.commit(self.writes, self.snapshot)
        if commit is not None:
            line.update(status="committed", commit=2 * commit + 1)
        self.snapshot, self.made = None, self.made + 1
        return line


def log_of(keys, snapshots=True, conflicts=True):
    """The log of one run. Its chances are drawn from one seed, so that it is always the same."""
    chance, store, lines = random.Random(1), Store(snapshots, conflicts), []
    clients = [Client(it, keys, store, chance) for it in range(1, CLIENTS + 1)]
    while len(lines) < TRANSACTIONS:
        line = chance.choice(clients).step()
        if line is not None:
            lines.append(json.dumps(line))
    return "".join(it + "\n" for it in lines)


def told(program, log, *words):
    """What the program tells of that log."""
    with tempfile.NamedTemporaryFile("w", suffix=".jsonl") as file:
        file.write(log)
        file.flush()
        return subprocess.run([program, "check", *words, file.name], stdout=subprocess.PIPE, text=True, check=False).stdout.splitlines()


def places(lines, kind):
    """How many places of the kind it tells."""
    return next(int(it.split()[2].partition("=")[2]) for it in lines if it.startswith(f"chances kind={kind} "))


def found(lines, kind):
    """How many findings of the kind."""
    return sum(it.startswith(f"{kind} key=") for it in lines)


def rows(told_of):
    """The rows of the table: the layout, and of each fault at how many places it could have been found, and how often it was."""
    table = []
    for name, keys in LAYOUTS.items():
        clean = told_of(log_of(keys), "--chances")
        assert not any(" key=" in it for it in clean), f"the log of a right store has findings: {clean}"
        newest, unchecked = told_of(log_of(keys, snapshots=False)), told_of(log_of(keys, conflicts=False))
        table.append((name, places(clean, "future"), found(newest, "future"), places(clean, "overlap"), found(unchecked, "overlap")))
    return table


def main():
    program = sys.argv[2] if sys.argv[1:2] == ["--program"] else PROGRAM
    for row in rows(lambda log, *words: told(program, log, *words)):
        print("| " + " | ".join(f"{it:,}" if isinstance(it, int) else it for it in row) + " |")


if __name__ == "__main__":
    main()
