"""Calls with arguments of wrong kinds, and what a log has no room for: each is a LogError that says what is wrong, and nothing is written
or changed."""
import io
import json
import os
import tempfile
import unittest
from operator import length_hint

import sicheck
from sicheck import COMMIT_ORDER, VERSION, LogError
from sicheck.numbering import MOST_CLIENT


class Silent:
    """One that can't even be shown."""

    def __repr__(self):
        raise RuntimeError


NO_NUMBERS = (None, True, 1.0, "1", b"1", [1], (1,), {1}, {}, -1, 2 ** 64, 10 ** 5000, -10 ** 5000, [10 ** 5000], object(), Silent())
NO_KEYS = (None, True, 1, 1.0, b"x", ["x"], ("x",), {"x"}, {}, "", "k" * 129, "k" * 10 ** 6, "\ud800", 10 ** 5000, object(), Silent())


class ArgumentTest(unittest.TestCase):
    def setUp(self):
        self.file = io.BytesIO()
        self.log = sicheck.Log(self.file, client=3)
        self.addCleanup(lambda: self.log.close())

    def lines(self):
        return [json.loads(line) for line in self.file.getvalue().splitlines()]

    def check_refused(self, call, *arguments, **options):
        """The call raises a LogError that isn't a message of Python's, writes nothing, and uses up no id."""
        before, left = self.file.getvalue(), length_hint(self.log._counts)
        with self.subTest(call=getattr(call, "__qualname__", call), kinds=[type(it).__name__ for it in (*arguments, *options.values())]):
            with self.assertRaises(LogError) as caught:
                call(*arguments, **options)
            self.assertIn(" ", str(caught.exception))
            self.assertLess(len(str(caught.exception)), 600)
        self.assertEqual((self.file.getvalue(), length_hint(self.log._counts)), (before, left))

    def doubtful(self, *values):
        txn = self.log.transaction(1)
        for value in values or (None,):
            txn.write("x", value)
        txn.in_doubt()
        return txn


class Kinds(ArgumentTest):
    def test_of_a_log(self):
        for client in (*NO_NUMBERS, 0):
            self.check_refused(sicheck.Log, io.BytesIO(), client=client)
        for stamps in (None, "after", 1, [], sicheck.Stamps):
            self.check_refused(sicheck.Log, io.BytesIO(), client=4, stamps=stamps)
        for resume in (None, 1, "yes", []):
            self.check_refused(sicheck.Log, io.BytesIO(), client=4, resume=resume)
        closed = io.BytesIO()
        closed.close()
        with open(os.devnull, "rb") as reading:
            for target in (7, 1.5, True, b"path", ["path"], object(), Silent(), 10 ** 5000, closed, reading, "a\0b"):
                self.check_refused(sicheck.Log, target, client=4)
        sicheck.Log(io.BytesIO(), client=4).close()

    def test_of_transactions(self):
        for start in [it for it in NO_NUMBERS if it is not None] + [2 ** 63]:
            self.check_refused(self.log.transaction, start)
        for stamps in ("after", "at", 1, False, [], sicheck.Stamps):
            self.check_refused(self.log.transaction, 1, stamps=stamps)
        txn = self.log.transaction()
        for start in NO_NUMBERS:
            self.check_refused(setattr, txn, "start", start)
        self.assertIsNone(txn.start)

    def test_of_operations(self):
        txn = self.log.transaction(1)
        for part in (txn, txn.savepoint()):
            for key in NO_KEYS:
                self.check_refused(part.read, key, 1)
                for value in (None, 1, VERSION):
                    self.check_refused(part.write, key, value)
            for value in NO_NUMBERS[1:]:
                self.check_refused(part.read, "x", value)
                self.check_refused(part.write, "x", value)
            self.check_refused(part.read, "x", VERSION)
            self.assertEqual(part._ops, [])
        self.assertEqual(txn._place, 0)

    def test_of_outcomes(self):
        txn = self.log.transaction(1)
        txn.write("x", VERSION)
        for stamp in NO_NUMBERS:
            self.check_refused(txn.commit, stamp)
        for versions in ([], "x", 1, True, {"x": None}, {"x": True}, {"x": "1"}, {"x": [1]}, {"x": -1}):
            self.check_refused(txn.commit, 2, versions)
        txn.commit(2)

    def test_of_set_ups(self):
        for key in NO_KEYS:
            self.check_refused(self.log.set_up, key, 1)
        for value in NO_NUMBERS:
            self.check_refused(self.log.set_up, "x", value)
        self.log.set_up("x", 1)

    def test_of_resolutions(self):
        number = self.doubtful().id
        other = sicheck.Log(io.BytesIO(), client=4)
        self.addCleanup(other.close)
        foreign = other.transaction(1)
        foreign.in_doubt()
        for which in (*NO_NUMBERS, foreign, foreign.id, number + 1):
            self.check_refused(self.log.resolve, which, commit=2)
            self.check_refused(self.log.withdraw, which)
        for commit in NO_NUMBERS:
            self.check_refused(self.log.resolve, number, commit)
        for aborted in (None, 1, "yes", []):
            self.check_refused(self.log.resolve, number, 2, aborted=aborted)
        for start in NO_NUMBERS[1:]:
            self.check_refused(self.log.resolve, number, 2, start=start)
        self.check_refused(self.log.resolve, number, 2, versions=[1])
        for options in ({"start": 1}, {"commit": 2}, {"versions": {}}):
            self.check_refused(self.log.resolve, number, aborted=True, **options)
        self.assertEqual((self.log.doubts, other.doubts), ((number,), (foreign.id,)))
        self.log.resolve(number, commit=2)

    def test_of_a_doubt_in_commit_order(self):
        txn = self.log.transaction(stamps=COMMIT_ORDER)
        txn.write("x", VERSION)
        txn.in_doubt()
        for commit in (*NO_NUMBERS, 2 ** 63):
            self.check_refused(self.log.resolve, txn, commit)
        self.log.resolve(txn, 2)
        self.assertEqual(self.log.doubts, ())

    def test_after_the_end(self):
        txn, other = self.log.transaction(1), self.log.transaction(1)
        part = other.savepoint()
        self.log.close()
        for call, arguments in ((txn.commit, (2,)), (txn.abort, ()), (txn.in_doubt, ()), (self.log.transaction, (1,)), (part.roll_back, ()),
                                (self.log.set_up, ("x", 1)), (self.log.resolve, (txn,)), (self.log.withdraw, (txn,))):
            self.check_refused(call, *arguments)
        self.log.close()


class Withdrawals(ArgumentTest):
    def test_of_a_transaction_without_a_line(self):
        txn, other = self.log.transaction(1), self.log.transaction(1)
        txn.write("x")
        self.check_refused(self.log.withdraw, txn)
        self.check_refused(self.log.withdraw, txn.id)
        self.check_refused(self.log.withdraw, other.id + 1)
        self.check_refused(self.log.withdraw, 4_000_001)
        txn.commit(2)
        self.log.withdraw(txn)
        self.check_refused(self.log.withdraw, txn)
        other.commit()
        self.assertEqual([it["do"] for it in self.lines()], ["txn", "withdraw", "txn"])
        self.assertEqual(sicheck.check(lines=self.file.getvalue().splitlines()).assert_passed().transactions, 1)

    def test_of_a_part_that_was_rolled_back(self):
        """Its values are its own: they aren't free again with the transaction."""
        txn = self.log.transaction(1)
        with txn.savepoint() as part:
            part.write("x", 5)
            part.roll_back()
        txn.commit()
        self.log.withdraw(txn)
        self.check_refused(self.log.transaction(1).write, "x", 5)


class Sizes(ArgumentTest):
    """Of a client whose ids and values have as many digits as there are."""
    KEY = "\0" * 128  # six bytes each in a line

    def setUp(self):
        super().setUp()
        self.log.close()
        self.log = sicheck.Log(self.file, client=MOST_CLIENT)

    def filled(self, letter, most=4096):
        """A transaction with as many operations of that kind as it takes, whose last key has any length that fits yet."""
        txn = self.log.transaction(2 ** 62)
        write = {"r": lambda key: txn.read(key, 2 ** 64 - 1), "w": txn.write, "v": lambda key: txn.write(key, VERSION)}[letter]
        count = 0
        for length in range(122, 0, -1):
            while count < most:
                try:
                    write(self.KEY[:length] + format(count, "06d"))
                except LogError:
                    break
                count += 1
        return txn, count

    def test_of_each_kind_of_line(self):
        """In doubt, resolved and rolled back each line fits that was counted as fitting."""
        great = 2 ** 62 + 1
        for letter in "rwv":
            for outcome in (lambda it: it.commit(great), lambda it: it.abort(), lambda it: (it.in_doubt(), it.commit(great)),
                            lambda it: (it.in_doubt(), it.abort())):
                self.file.truncate(0)
                self.file.seek(0)
                txn, count = self.filled(letter)
                self.assertGreater(count, 1200)
                outcome(txn)
                longest = max(map(len, self.file.getvalue().split(b"\n")))
                self.assertLessEqual(longest, 1_048_576)
                self.assertGreater(longest, 1_000_000)
                self.assertEqual(sicheck.check(lines=self.file.getvalue().splitlines(), expect=None).refused, 0)

    def test_of_4096_versions(self):
        """With keys of such a length that the places of the versions decide whether the line fits."""
        txn = self.log.transaction(stamps=COMMIT_ORDER)
        before = None
        for count in range(4096):
            try:
                txn.write("\0" * 37 + format(count, "04d"), VERSION)
            except LogError as it:
                before = it
                break
        self.assertIsNotNone(before)
        self.assertEqual(self.file.getvalue(), b"")
        txn.in_doubt()
        txn.commit(2 ** 62)
        self.assertLessEqual(max(map(len, self.file.getvalue().split(b"\n"))), 1_048_576)
        self.assertEqual([it["do"] for it in self.lines()], ["txn", "withdraw", "txn"])

    def test_of_a_doubt_that_was_written_otherwise(self):
        """A line of another program, whose new line would be too long: nothing is withdrawn."""
        ops = [["w", "\0" * 38 + format(count, "04d"), 0] for count in range(4096)]
        line = {"do": "txn", "id": 5_000_001, "start": 0, "status": "indoubt", "ops": ops, "versions": list(range(4096))}
        with tempfile.TemporaryDirectory(dir="/dev/shm" if os.path.isdir("/dev/shm") else None) as folder:
            path = f"{folder}/log"
            with sicheck.Log(path, client=5):
                pass
            with open(path, "w", encoding="utf-8") as file:
                file.write(json.dumps(line, separators=(",", ":")) + "\n")
            size = os.path.getsize(path)
            self.assertLess(size, 1_048_576)
            with sicheck.Log(path, client=5, resume=True) as log:
                self.check_refused(log.resolve, 5_000_001, 2 ** 62)
                self.assertEqual((log.doubts, os.path.getsize(path)), ((5_000_001,), size))
            for versions in (7, [4096], ["0"], [True], [0.0], [[]]):
                with open(path, "w", encoding="utf-8") as file:
                    file.write(json.dumps({**line, "ops": [["w", "x", 1]], "versions": versions}) + "\n")
                with sicheck.Log(path, client=5, resume=True) as log:
                    self.check_refused(log.resolve, 5_000_001, 2)


if __name__ == "__main__":
    unittest.main()
