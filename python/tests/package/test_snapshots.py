"""Numbers by snapshots: those of rows of clients, and of a database that lets a transaction overwrite what its snapshot doesn't show."""
import collections
import itertools
import random
import tempfile
import unittest

import sicheck
from small_database import Database, logs_in, stamp_by_rows

SEEDS = range(12)


class Overwriting:
    """A database that locks what is written until the commit, and never looks whether another one wrote it since the snapshot was taken; in one
    thread, where each client's transaction goes on by a step at a time, in an order by chance."""

    def __init__(self, seed, clients=6, transactions=20, keys=3):
        self.chance = random.Random(seed)
        self.values = {}  # by key: the newest value, as committed
        self.locks = {}  # by key: the client that holds it
        self.rows = {client: 0 for client in range(1, clients + 1)}
        self.order = itertools.count()
        self.told = []
        running = {client: self.client(client, transactions, keys) for client in self.rows}
        while running:
            client = self.chance.choice(list(running))
            if next(running[client], None) is None:
                del running[client]

    def client(self, client, transactions, keys):
        """Yields behind each step."""
        for count in range(1, transactions + 1):
            number = client * 1_000_000 + count
            values, rows, ops, written = dict(self.values), dict(self.rows), [], {}
            # Keys rise, so that no two wait for each other.
            for key in sorted(self.chance.sample(range(keys), self.chance.randint(1, keys))):
                if self.chance.random() < 0.5:
                    ops.append(["r", f"k{key}", values.get(key)])
                else:
                    while self.locks.setdefault(key, client) != client:
                        yield True
                    written[key] = number * 4096 + len(ops)
                    ops.append(["w", f"k{key}", written[key]])
                yield True
            place = next(self.order)
            yield True  # others may come between, but none that writes the same key
            self.values.update(written)
            self.locks = {key: holder for key, holder in self.locks.items() if holder != client}
            if written:
                self.rows[client] = number
            self.told.append((number, rows, ops, place, bool(written)))

    def report(self, tie):
        """The report on the log of it all, where equals among the writers go by this."""
        writers = sorted((told for told in self.told if told[4]), key=tie)
        starts, commits, forks = sicheck.numbers_by_snapshots(
            {number: lambda writer, rows=rows: rows[writer // 1_000_000] >= writer for number, rows, _, _, _ in self.told},
            [number for number, _, _, _, _ in writers])
        assert not forks
        lines = [{"do": "txn", "id": number, "start": 2 * starts[number] + 2, "status": "committed", "ops": ops,
                  "commit": 2 * commits[number] + 1 if is_writer else 2 * starts[number] + 2}
                 for number, _, ops, _, is_writer in self.told]
        return sicheck.check(lines=lines)


class Ties(unittest.TestCase):
    def test_unseen_overwriting(self):
        """Its reads are right, so nothing is stale and nothing comes from the future. It overwrites what it doesn't see, which is an overlap."""
        by_client, by_counter = collections.Counter(), collections.Counter()
        for seed in SEEDS:
            run = Overwriting(seed)
            for counts, tie in ((by_client, lambda told: told[0]), (by_counter, lambda told: told[3])):
                counts.update({kind: sum(keys.values()) for kind, keys in run.report(tie).counts().items()})
        self.assertEqual(set(by_counter), {"overlap"}, by_counter)
        # An order of its own is no order of theirs: so it is said that the counter's is asked for.
        self.assertGreater(by_client["stale"], 0, by_client)

    def test_rows_of_clients(self):
        """No stamps but a row for each client: healthy it is clean, and lost updates are found."""
        for fault, verdict in ((None, "clean"), ("lost", "violation")):
            with tempfile.TemporaryDirectory() as folder, logs_in(folder, 4) as logs:
                self.assertEqual(stamp_by_rows(Database(fault), logs, 60), ())
                report = sicheck.check([f"{folder}/client-{number}.jsonl" for number in range(1, 5)])
                self.assertEqual((report.verdict, report.refused, report.transactions), (verdict, 0, 240))
                self.assertLessEqual(set(report.counts()), {"overlap"})

    def test_by_hand(self):
        """7 is seen before 5, which is seen before 6; 8 is seen by nobody. One who sees nothing starts at 0."""
        snapshots = {"a": [], "b": [7], "c": [7, 5], "d": [5, 6, 7]}
        numbers = sicheck.numbers_by_snapshots({name: seen.__contains__ for name, seen in snapshots.items()}, [5, 6, 7, 8])
        self.assertEqual(numbers, ({"a": 0, "b": 1, "c": 2, "d": 3}, {7: 1, 5: 2, 6: 3, 8: 4}, ()))


class Forks(unittest.TestCase):
    def numbers(self, *snapshots):
        return sicheck.numbers_by_snapshots({place: set(seen).__contains__ for place, seen in enumerate(snapshots)}, range(1, 6))

    def test_long_fork(self):
        """One sees 1 and not 2, another one 2 and not 1."""
        numbers = self.numbers([1], [2], [1, 2, 3])
        self.assertEqual(numbers.forks, (sicheck.Fork(1, 0, 2, 1),))
        self.assertEqual(str(numbers.forks[0]), "fork: the snapshot of 1 sees 2 and not 1, and that of 0 sees 1 and not 2")
        self.assertEqual(numbers.starts, {0: 1, 1: 0, 2: 3})

    def test_one_snapshot_against_many(self):
        """The others are numbered as they would be without it, and it has the number up to which it agrees."""
        others = [[], [1], [1, 2], [1, 2, 3], [1, 2, 3], [1, 2, 3, 4]]
        without, beside = self.numbers(*others), self.numbers(*others, [1, 4])
        self.assertEqual(without.forks, ())
        self.assertEqual(beside.commits, without.commits)
        self.assertEqual(beside.starts, {**without.starts, 6: 1})
        self.assertEqual([(fork.reader, fork.seen, fork.missed) for fork in beside.forks], [(6, 4, 2)])

    def test_each_contradiction_is_told(self):
        """There is a fork exactly where two snapshots each see a writer that the other one doesn't; and no snapshot's number counts a writer that
        it doesn't see, so that none who commits has a later start."""
        for seed in range(2000):
            chance = random.Random(seed)
            sets = [{number for number in range(1, 6) if chance.random() < 0.6} for _ in range(chance.randint(1, 5))]
            starts, commits, forks = self.numbers(*sets)
            self.assertEqual(bool(forks), any(one - other and other - one for one in sets for other in sets), seed)
            for fork in forks:
                one, other = sets[fork.reader], sets[fork.other]
                self.assertTrue(fork.seen in one - other and fork.missed in other - one, seed)
            for reader, start in starts.items():
                self.assertLessEqual({writer for writer, commit in commits.items() if commit <= start}, sets[reader], seed)


if __name__ == "__main__":
    unittest.main()
