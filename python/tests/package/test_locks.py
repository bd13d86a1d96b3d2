"""A database that locks and tells no number: a counter of the test, drawn while all locks are held, is all that the log needs."""
import io
import itertools
import random
import unittest

import sicheck

SEEDS = range(12)


class Locking:
    """A database whose transactions keep their locks until the commit, on keys that aren't there too; in one thread, where each client goes on by a
    step at a time, in an order by chance. With `reads_unlocked` some reads take no lock. It knows the serial run in the order of the counter,
    and which reads aren't those of it."""

    def __init__(self, seed, reads_unlocked=False, clients=5, transactions=30, keys=4):
        self.chance, self.reads_unlocked = random.Random(seed), reads_unlocked
        self.values, self.serial = {}, {}
        self.readers, self.writer = {key: set() for key in range(keys)}, {}
        self.counter = itertools.count(1)
        self.wrong = set()  # pairs of an id and the place of an operation
        self.text = io.StringIO()
        running = {client: self.client(client, transactions, keys) for client in range(1, clients + 1)}
        while running:
            client = self.chance.choice(list(running))
            if next(running[client], None) is None:
                del running[client]

    def client(self, client, transactions, keys):
        """Yields behind each step."""
        log = sicheck.Log(self.text, client=client, stamps=sicheck.COMMIT_ORDER)
        for _ in range(transactions):
            with log.transaction() as txn:
                read, written = [], {}
                # Keys rise, so that no two wait for each other.
                for place, key in enumerate(sorted(self.chance.sample(range(keys), self.chance.randint(1, 3)))):
                    if self.chance.random() < 0.6:
                        if not self.reads_unlocked or self.chance.random() < 0.5:
                            while key in self.writer:
                                yield True
                            self.readers[key].add(client)
                        read.append((place, key, txn.read(f"k{key}", self.values.get(key))))
                    else:
                        while key in self.writer or self.readers[key]:
                            yield True
                        self.writer[key] = client
                        written[key] = txn.write(f"k{key}")
                    yield True
                number = next(self.counter)
                self.wrong.update((txn.id, place) for place, key, value in read if value != self.serial.get(key))
                self.serial.update(written)
                yield True  # the commit is on its way
                self.values.update(written)
                for key in self.readers:
                    self.readers[key].discard(client)
                self.writer = {key: holder for key, holder in self.writer.items() if holder != client}
                txn.commit(number)
        log.close()

    def report(self):
        return sicheck.check(lines=self.text.getvalue().splitlines())


class Counter(unittest.TestCase):
    def test_locks_until_the_commit(self):
        for seed in SEEDS:
            run = Locking(seed)
            self.assertEqual(run.wrong, set())
            self.assertEqual(run.report().assert_passed().transactions, 150)

    def test_reads_without_a_lock(self):
        """The findings are the reads that aren't those of the serial run, and no others."""
        wrong = 0
        for seed in SEEDS:
            run = Locking(seed, reads_unlocked=True)
            report = run.report()
            self.assertEqual({(finding.txn, finding.op) for finding in report.findings}, run.wrong, seed)
            wrong += len(run.wrong)
        self.assertGreater(wrong, 50)


if __name__ == "__main__":
    unittest.main()
