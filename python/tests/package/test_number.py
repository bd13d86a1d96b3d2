"""Raw lines that become a log: by the rows of clients, by PostgreSQL's snapshots, by the database's own numbers."""
import json
import os
import random
import resource
import subprocess
import sys
import tempfile
import unittest
from pathlib import Path

import sicheck
from sicheck.chains import Sight, numbers_by_chains

PYTHON = Path(__file__).resolve().parents[2]


def number(lines, *words, folder=None):
    """The command on these lines: its status, what it writes as objects, and what it complains."""
    given = b"".join((line if isinstance(line, bytes) else json.dumps(line).encode()) + b"\n" for line in lines)
    done = subprocess.run([sys.executable, "-m", "sicheck", "number", *words], input=given, capture_output=True, cwd=folder, check=False,
                          env={**os.environ, "PYTHONPATH": str(PYTHON)})
    return done.returncode, [json.loads(line) for line in done.stdout.splitlines()], done.stderr.decode()


def txn(number, seen, *ops, status="committed", **more):
    return {"do": "txn", "id": number, "seen": seen, "status": status, "ops": [list(op) for op in ops], **more}


def stamps(lines):
    """By id: start and commit."""
    return {it["id"]: (it["start"], it.get("commit")) for it in lines if it["do"] == "txn"}


class Chains(unittest.TestCase):
    """The order by chains is that of `numbers_by_snapshots`, which asks each snapshot of each writer."""

    def draw(self, chance):
        chains = [[100 * chain + index for index in range(chance.randint(0, 5))] for chain in range(chance.randint(1, 3))]
        writers = [it for chain in chains for it in chain]
        ties = dict(zip(chance.sample(writers, len(writers)), range(len(writers))))
        sights = {}
        for reader in range(chance.randint(0, 6)):
            lengths = tuple(chance.randint(0, len(chain)) for chain in chains)
            seen = [(chain, index) for chain, length in enumerate(lengths) for index in range(length)]
            unseen = chance.sample(seen, chance.randint(0, min(2, len(seen)))) if chance.random() < 0.3 else ()
            sights[reader] = Sight(lengths, tuple(unseen))
        return chains, ties, sights

    def test_beside_the_slow_one(self):
        chance, forked, whole = random.Random(5), 0, 0
        for _ in range(1_000):
            chains, ties, sights = self.draw(chance)
            place = {writer: (chain, index) for chain, writers in enumerate(chains) for index, writer in enumerate(writers)}
            slow = sicheck.numbers_by_snapshots({reader: lambda writer, sight=sight: sight.sees(place[writer]) for reader, sight in sights.items()},
                                                sorted(ties, key=ties.get))
            numbers, count = numbers_by_chains(chains, ties, sights)
            self.assertEqual((numbers, count), (slow, len(slow.forks)), (chains, ties, sights))
            forked += bool(slow.forks)
            whole += not slow.forks and len(sights) > 1
        self.assertGreater(min(forked, whole), 150)

    def test_many_forks(self):
        """Half of the snapshots see 1 and not 2, half 2 and not 1: as many forks as the second half, of which some are told."""
        sights = {reader: Sight((1, 0) if reader % 2 else (0, 1)) for reader in range(100)}
        numbers, count = numbers_by_chains([[1], [2]], {1: 0, 2: 1}, sights)
        self.assertEqual((numbers.commits, count, len(numbers.forks)), ({1: 1, 2: 2}, 50, 20))
        self.assertEqual(numbers.forks[0], (0, 1, 2, 1))


class Rows(unittest.TestCase):
    def test_by_hand(self):
        """Client 2 commits first: the snapshot of 1000002 sees it and not 1000001. Nobody has seen 1000003 or 2000002: the counter tells."""
        lines = [
            {"do": "setup", "key": "y", "value": 3},
            txn(1000001, {"1": 0, "2": None}, ["w", "x", 1], tie=2),
            txn(2000001, {}, ["r", "y", 3], ["w", "y", 4], tie=1),
            txn(1000002, {"1": 0, "2": 2000001}, ["r", "x", None]),
            txn(1000003, {"1": 1000001, "2": 2000001}, ["w", "x", 5], tie=9),
            txn(2000002, {"1": 1000001, "2": 2000001}, ["w", "y", 6], tie=4),
            txn(2000003, {"1": 1000001, "2": 2000001}, ["w", "y", 7], status="aborted"),
            {"do": "txn", "id": 2000004, "status": "aborted", "ops": [["w", "y", 8]]}]
        status, log, complaint = number(lines)
        self.assertEqual((status, complaint), (0, ""))
        self.assertEqual(stamps(log), {1000001: (2, 5), 2000001: (2, 3), 1000002: (4, 4), 1000003: (6, 9), 2000002: (6, 7), 2000003: (6, None),
                                       2000004: (0, None)})
        self.assertEqual(log[0], lines[0])
        self.assertEqual(log[2], {"do": "txn", "id": 2000001, "start": 2, "status": "committed", "commit": 3, "ops": [["r", "y", 3], ["w", "y", 4]]})
        sicheck.check(lines=log, expect=5).assert_passed(unproved=True)

    def test_names_of_clients(self):
        """A client has the name that its row has, and ids of its own."""
        lines = [txn(7, {}, ["w", "x", 1], client="né", tie=1), txn(3, {"né": 7}, ["r", "x", 1], client="b"),
                 txn(4, {"né": 6}, ["r", "x", None], client="b")]
        self.assertEqual(stamps(number(lines)[1]), {7: (2, 3), 3: (4, 4), 4: (2, 2)})

    def test_doubt(self):
        """One in doubt that committed is a writer as any other; one that didn't is none."""
        lines = [txn(1000001, {}, ["w", "x", 1], status="indoubt", tie=1), {"do": "resolve", "id": 1000001, "status": "committed"},
                 txn(2000001, {}, ["w", "y", 1], status="indoubt", tie=2), {"do": "resolve", "id": 2000001, "status": "aborted"},
                 txn(3000001, {"1": 1000001}, ["r", "x", 1])]
        status, log, _ = number(lines)
        self.assertEqual(stamps(log), {1000001: (2, None), 2000001: (2, None), 3000001: (4, 4)})
        self.assertEqual(log[1], {"do": "resolve", "id": 1000001, "status": "committed", "commit": 3})
        self.assertEqual((status, log[3]), (0, lines[3]))
        sicheck.check(lines=log).assert_passed(unproved=True)

    def test_fork(self):
        lines = [txn(1000001, {}, ["w", "x", 1], tie=1), txn(2000001, {}, ["w", "y", 1], tie=2),
                 txn(3000001, {"1": 1000001, "2": 0}, ["r", "z", None]), txn(4000001, {"1": 0, "2": 2000001}, ["r", "z", None])]
        status, log, complaint = number(lines)
        self.assertEqual((status, len(log)), (20, 4))
        self.assertEqual(complaint, "fork: the snapshot of 4000001 sees 2000001 and not 1000001, and that of 3000001 sees 1000001 and not 2000001\n")


class Postgresql(unittest.TestCase):
    def test_by_hand(self):
        """11 commits before 10, as the snapshot 10:12:10 tells."""
        lines = [txn(1, "10:10:", ["w", "x", 1], xid=10, tie=1), txn(2, "10:11:10", ["w", "y", 1], xid=11, tie=2),
                 txn(3, "10:12:10", ["r", "y", 1], ["r", "x", None]), txn(4, "12:12:", ["r", "x", 1])]
        status, log, _ = number(lines)
        self.assertEqual((status, stamps(log)), (0, {1: (2, 5), 2: (2, 3), 3: (4, 4), 4: (6, 6)}))


class Numbers(unittest.TestCase):
    LINES = (txn(1, 0, ["w", "x", 1], commit=5), txn(2, 5, ["r", "x", 1]), txn(3, 4, ["w", "y", 1], status="aborted"))

    def test_as_they_are(self):
        self.assertEqual(stamps(number(self.LINES)[1]), {1: (2, 11), 2: (12, 12), 3: (10, None)})
        self.assertEqual(stamps(number(self.LINES, "--stamps", "at")[1]), {1: (0, 11), 2: (10, 10), 3: (8, None)})

    def test_that_come_twice(self):
        """Two commits as 5: the counter says which is the first. A snapshot at 5 sees both, or with `at` none."""
        lines = [txn(1, 0, ["w", "x", 1], commit=5, tie=8), txn(2, 0, ["w", "y", 1], commit=5, tie=7), txn(3, 5, ["r", "z", None])]
        self.assertEqual(stamps(number(lines)[1]), {1: (2, 5), 2: (2, 3), 3: (6, 6)})
        self.assertEqual(stamps(number(lines, "--stamps", "at")[1]), {1: (2, 5), 2: (2, 3), 3: (2, 2)})

    def test_fractions(self):
        lines = [b'{"do":"txn","id":1,"seen":1.5,"status":"committed","commit":1700000000.0000000002,"ops":[["w","x",1]]}',
                 b'{"do":"txn","id":2,"seen":1.5,"status":"committed","commit":1700000000.0000000001,"ops":[["w","y",1]]}',
                 b'{"do":"txn","id":3,"seen":1700000000.0000000001,"status":"committed","ops":[["r","y",1]]}']
        self.assertEqual(stamps(number(lines)[1]), {1: (2, 5), 2: (2, 3), 3: (4, 4)})


class Refused(unittest.TestCase):
    def test_each(self):
        writer = txn(1, {}, ["w", "x", 1], tie=1)
        for lines, why in (
                ([b"{"], "standard input:1: no JSON"),
                ([b"7"], "standard input:1: no line of a log: `do` is txn, resolve, withdraw or setup"),
                ([{"do": "withdraw", "id": 1}], "standard input:1: a raw log has no `withdraw`: leave the false line out"),
                ([{**writer, "id": -1}], "standard input:1: the id -1 is no whole number"),
                ([writer, writer], "standard input:2: transaction 1 stands at standard input:1 already"),
                ([{**writer, "status": "done"}], "standard input:1: transaction 1 has a `status` and `ops` as in a log"),
                ([{key: it for key, it in writer.items() if key != "seen"}],
                 "standard input:1: transaction 1 doesn't say what its snapshot has `seen`"),
                ([{**writer, "tie": None}], "standard input:1: transaction 1 has written, and None is no `tie`: draw it from one counter of all "
                                            "clients right before the commit"),
                ([writer, txn(2, 7, ["r", "x", 1])], "standard input:2: transaction 2 has seen 7, which isn't an object, as that of others is"),
                ([writer, txn(2, {"0": "1"}, ["r", "x", 1])],
                 "standard input:2: transaction 2 has '1' in the row of client 0, which is no id"),
                ([txn(1, "1:2:x", ["r", "x", 1])], None),
                ([txn(1, "1:1:", ["w", "x", 1], tie=1)], "standard input:1: transaction 1 has written, and None is no `xid`"),
                ([txn(1, 1, ["w", "x", 1])], "standard input:1: transaction 1 has committed, and None is no number of a commit"),
                ([txn(1, 1, ["w", "x", 1], commit=5), txn(2, 1, ["w", "y", 1], commit=5, tie=1)],
                 "standard input:1: transaction 1 has written, and None is no `tie`: draw it from one counter of all clients right before the "
                 "commit")):
            why = why or "standard input:1: transaction 1 has seen '1:2:x', which is no snapshot of PostgreSQL"
            self.assertEqual(number(lines), (2, [], f"sicheck number: {why}\n"))

    def test_files(self):
        with tempfile.TemporaryDirectory() as folder:
            Path(folder, "a").write_text(json.dumps(txn(1, {}, ["w", "x", 1], tie=1)) + "\n", encoding="utf-8")
            Path(folder, "b").write_text("\n" + json.dumps(txn(2, {"0": 1}, ["r", "x", 1])), encoding="utf-8")
            self.assertEqual(stamps(number([], "a", "b", folder=folder)[1]), {1: (2, 3), 2: (4, 4)})
            self.assertEqual(number([], "a", "a", folder=folder)[2], "sicheck number: b:2: no JSON\n".replace(
                "b:2: no JSON", "a:1: transaction 1 stands at a:1 already"))
            self.assertEqual(number([], "a", "c", folder=folder)[::2], (2, "sicheck number: cannot read c: No such file or directory\n"))


class Speed(unittest.TestCase):
    def test_many(self):
        """50,000 transactions of 8 clients take some 3 seconds of processor time; by the square of them it was ten minutes."""
        chance, last, lines = random.Random(1), {}, []
        for count in range(50_000):
            client = count % 8 + 1
            mine = client * 1_000_000 + count // 8 + 1
            lines.append(txn(mine, {str(it): number for it, number in last.items()}, ["r", "x", None], ["w", f"k{client}", mine], tie=count))
            if chance.random() < 0.9:
                last[client] = mine
            else:
                lines[-1]["status"] = "aborted"
        before = resource.getrusage(resource.RUSAGE_CHILDREN).ru_utime
        status, log, _ = number(lines)
        self.assertEqual((status, len(log)), (0, 50_000))
        self.assertLess(resource.getrusage(resource.RUSAGE_CHILDREN).ru_utime - before, 30)


if __name__ == "__main__":
    unittest.main()
