"""A log's lines, worked out by hand from docs/FORMAT.md, and what it refuses to write."""
import io
import json
import os
import tempfile
import unittest

import sicheck
from sicheck import AFTER, AT, COMMIT_ORDER, VERSION, LogError
from sicheck.log_lines import Place, edit_of

ID = 3_000_001  # the first transaction of client 3
VALUE = ID * 4096


class LogTest(unittest.TestCase):
    """A log in memory, and what stands in it."""

    def setUp(self):
        self.file = io.BytesIO()
        self.log = sicheck.Log(self.file, client=3)
        self.addCleanup(lambda: self.log.close())

    def ordered(self, stamps):
        self.log.close()
        self.log = sicheck.Log(self.file, client=3, stamps=stamps)
        return self.log

    def text(self):
        return self.file.getvalue().decode("utf-8")

    def check_lines(self, *lines):
        """The log has these lines, and each is an edit by the form."""
        self.assertEqual(self.text().splitlines(), list(lines))
        for place, line in enumerate(self.file.getvalue().splitlines(), 1):
            edit_of(line, Place(0, place), {})


class Lines(LogTest):
    def test_after(self):
        """A start at 4 sees the commit at 4: 10. The commit 5 is 11."""
        with self.log.transaction(4) as txn:
            self.assertEqual(txn.read("x", 7), 7)
            self.assertEqual(txn.write("x"), VALUE + 1)
            txn.read("é", None)
            txn.commit(5)
        self.check_lines('{"do":"txn","id":3000001,"start":10,"status":"committed","commit":11,'
                         f'"ops":[["r","x",7],["w","x",{VALUE + 1}],["r","é",null]]}}')

    def test_at(self):
        """A start at 4 doesn't see the commit at 4: 8. So a writer whose number is that of its coming commit has 8 and 9."""
        with self.ordered(AT).transaction(4) as txn:
            txn.write("x")
            txn.commit(4)
        with self.log.transaction(4, stamps=AFTER) as txn:
            txn.read("x", VALUE)
            txn.commit(99)
        self.check_lines(f'{{"do":"txn","id":3000001,"start":8,"status":"committed","commit":9,"ops":[["w","x",{VALUE}]]}}',
                         f'{{"do":"txn","id":3000002,"start":10,"status":"committed","commit":10,"ops":[["r","x",{VALUE}]]}}')

    def test_commit_order(self):
        """A writer has 2c and 2c + 1, a reader 2s + 2 twice, and a rolled back one any even number."""
        with self.ordered(COMMIT_ORDER).transaction() as txn:
            txn.write("x")
            txn.commit(5)
        with self.log.transaction() as txn:
            txn.read("x", VALUE)
            txn.commit(5)
        with self.log.transaction(5) as txn:
            txn.read("x", VALUE)
            txn.commit()
        with self.log.transaction() as txn:
            txn.write("x")
            txn.abort()
        self.check_lines(f'{{"do":"txn","id":3000001,"start":10,"status":"committed","commit":11,"ops":[["w","x",{VALUE}]]}}',
                         f'{{"do":"txn","id":3000002,"start":12,"status":"committed","commit":12,"ops":[["r","x",{VALUE}]]}}',
                         f'{{"do":"txn","id":3000003,"start":12,"status":"committed","commit":12,"ops":[["r","x",{VALUE}]]}}',
                         f'{{"do":"txn","id":3000004,"start":0,"status":"aborted","ops":[["w","x",{VALUE + 3 * 4096}]]}}')

    def test_start_later(self):
        txn = self.log.transaction()
        txn.write("x")
        txn.start = 4
        txn.commit(5)
        self.check_lines(f'{{"do":"txn","id":3000001,"start":10,"status":"committed","commit":11,"ops":[["w","x",{VALUE}]]}}')

    def test_set_up_resolve_withdraw(self):
        self.log.set_up("y", 0)
        txn = self.log.transaction(1)
        txn.write("x")
        txn.in_doubt()
        self.assertEqual(self.log.doubts, (ID,))
        self.log.resolve(ID, commit=2)
        other = self.log.transaction(1)
        other.write("x")
        other.in_doubt()
        other.abort()
        third = self.log.transaction(1)
        third.read("x", None)
        third.in_doubt()
        third.commit()
        self.log.withdraw(third)
        self.assertEqual(self.log.doubts, ())
        self.check_lines('{"do":"setup","key":"y","value":0}',
                         f'{{"do":"txn","id":3000001,"start":4,"status":"indoubt","ops":[["w","x",{VALUE}]]}}',
                         '{"do":"resolve","id":3000001,"status":"committed","commit":5}',
                         f'{{"do":"txn","id":3000002,"start":4,"status":"indoubt","ops":[["w","x",{VALUE + 4096}]]}}',
                         '{"do":"resolve","id":3000002,"status":"aborted"}',
                         '{"do":"txn","id":3000003,"start":4,"status":"indoubt","ops":[["r","x",null]]}',
                         '{"do":"resolve","id":3000003,"status":"committed","commit":4}',
                         '{"do":"withdraw","id":3000003}')

    def test_doubt_in_commit_order(self):
        """Before its commit is known it has no start there, so it is withdrawn and logged again."""
        txn = self.ordered(COMMIT_ORDER).transaction()
        txn.write("x")
        txn.in_doubt()
        txn.commit(5)
        self.assertEqual([json.loads(line)["do"] for line in self.text().splitlines()], ["txn", "withdraw", "txn"])
        self.assertEqual(json.loads(self.text().splitlines()[2]), {
            "do": "txn", "id": ID, "start": 10, "status": "committed", "commit": 11, "ops": [["w", "x", VALUE]]})
        other = self.log.transaction()
        other.write("x")
        other.in_doubt()
        other.abort()
        self.assertEqual(json.loads(self.text().splitlines()[-1]), {"do": "resolve", "id": ID + 1, "status": "aborted"})

    def test_doubt_without_a_start(self):
        txn = self.log.transaction()
        txn.write("x")
        txn.in_doubt()
        with self.assertRaisesRegex(LogError, "start of transaction 3000001 isn't known"):
            self.log.resolve(ID, commit=5)
        self.log.resolve(ID, commit=5, start=4)
        self.assertEqual([json.loads(line).get("start") for line in self.text().splitlines()], [0, None, 10])

    def test_versions(self):
        """What is written has the number of its commit for its value, or what the database calls the version of its key."""
        with self.log.transaction(4) as txn:
            txn.read("x", 3)
            txn.write("x", VERSION)
            txn.write("y", VERSION)
            txn.commit(5, versions={"y": 2})
        with self.log.transaction(5) as txn:
            txn.write("x", VERSION)
            txn.abort()
        txn = self.log.transaction(5)
        txn.write("x", VERSION)
        txn.in_doubt()
        self.log.resolve(txn, commit=6)
        ops = [json.loads(line).get("ops") for line in self.text().splitlines()]
        self.assertEqual(ops, [[["r", "x", 3], ["w", "x", 5], ["w", "y", 2]], [["w", "x", VALUE + 4096]], [["w", "x", VALUE + 2 * 4096]],
                               None, [["w", "x", 6]]])

    def test_savepoints(self):
        """A part that is kept is the transaction's; one that isn't is an aborted transaction with the same start."""
        with self.log.transaction(4) as txn:
            txn.write("x")
            with txn.savepoint() as part:
                part.write("y")
                part.roll_back()
            with txn.savepoint() as part:
                part.write("y")
                with part.savepoint() as inner:
                    inner.write("z")
            with self.assertRaises(KeyError), txn.savepoint() as part:
                part.write("w")
                raise KeyError
            txn.read("y", VALUE + 2)
            txn.commit(5)
        self.check_lines(f'{{"do":"txn","id":3000002,"start":10,"status":"aborted","ops":[["w","y",{VALUE + 1}]]}}',
                         f'{{"do":"txn","id":3000003,"start":10,"status":"aborted","ops":[["w","w",{VALUE + 4}]]}}',
                         '{"do":"txn","id":3000001,"start":10,"status":"committed","commit":11,"ops":['
                         f'["w","x",{VALUE}],["w","y",{VALUE + 2}],["w","z",{VALUE + 3}],["r","y",{VALUE + 2}]]}}')

    def test_origins(self):
        self.assertEqual(sicheck.origin_of(VALUE + 7), sicheck.Origin(ID, 3, 1, 7))
        self.assertEqual(sicheck.client_of(ID), 3)

    def test_text_file(self):
        file = io.StringIO()
        sicheck.Log(file, client=1).set_up("é", 1)
        self.assertEqual(file.getvalue(), '{"do":"setup","key":"é","value":1}\n')


class Blocks(LogTest):
    """What becomes of a transaction whose block ends otherwise than by its outcome."""

    def statuses(self):
        return [json.loads(line)["status"] for line in self.text().splitlines()]

    def test_error_is_aborted(self):
        with self.assertRaises(KeyError), self.log.transaction(1) as txn:
            txn.write("x")
            raise KeyError
        self.assertEqual((self.statuses(), txn.status), (["aborted"], "aborted"))

    def test_error_in_a_savepoint(self):
        with self.assertRaises(KeyError), self.log.transaction(1) as txn:
            txn.write("x")
            with txn.savepoint() as part:
                part.write("y")
                raise KeyError
        self.assertEqual([json.loads(line)["ops"] for line in self.text().splitlines()], [[["w", "y", VALUE + 1]], [["w", "x", VALUE]]])

    def test_error_after_doubt_stays_in_doubt(self):
        with self.assertRaises(OSError), self.log.transaction(1) as txn:
            txn.write("x")
            txn.in_doubt()
            raise OSError
        self.assertEqual((self.statuses(), self.log.doubts), (["indoubt"], (ID,)))

    def test_interrupted_is_in_doubt(self):
        with self.assertRaises(KeyboardInterrupt), self.log.transaction(1) as txn:
            txn.write("x")
            raise KeyboardInterrupt
        self.assertEqual(self.statuses(), ["indoubt"])

    def test_no_outcome_is_in_doubt_and_told(self):
        with self.assertRaisesRegex(LogError, "nobody said what became of transaction 3000001"), self.log.transaction(1) as txn:
            txn.write("x")
        self.assertEqual(self.statuses(), ["indoubt"])

    def test_commit_that_is_refused_is_in_doubt(self):
        """The database committed, so the transaction wasn't rolled back."""
        with self.assertRaisesRegex(LogError, "would commit at 9, before its start at 10"), self.log.transaction(4) as txn:
            txn.write("x")
            txn.commit(4)
        self.assertEqual(self.statuses(), ["indoubt"])
        self.log.resolve(ID, commit=5)


class Forbidden(LogTest):
    """What the format forbids raises, and nothing is written."""

    def check_forbids(self, words, call, *arguments, **named):
        before = self.text()
        with self.assertRaisesRegex(LogError, words):
            call(*arguments, **named)
        self.assertEqual(self.text(), before)

    def test_keys(self):
        txn = self.log.transaction(1)
        for key, words in (("", "has 0"), ("k" * 129, "has 129"), ("é" * 65, "has 130"), (b"x", "is text"), (7, "is text"), ("\ud800", "half")):
            for call, arguments in ((txn.read, (key, 1)), (txn.write, (key,)), (self.log.set_up, (key, 1))):
                self.check_forbids(words, call, *arguments)
        txn.write("k" * 128)
        txn.write("é" * 64)

    def test_values(self):
        txn = self.log.transaction(1)
        for value in (-1, 2 ** 64, 1.0, True, "1"):
            self.check_forbids("whole number", txn.read, "x", value)
            self.check_forbids("whole number", txn.write, "x", value)
            self.check_forbids("whole number", self.log.set_up, "x", value)
        self.check_forbids("whole number", self.log.set_up, "x", None)

    def test_values_twice(self):
        txn = self.log.transaction(1)
        txn.write("x", 5)
        self.check_forbids("already", txn.write, "x", 5)
        self.check_forbids("already", self.log.set_up, "x", 5)
        txn.write("y", 5)
        self.log.set_up("x", 6)
        self.check_forbids("already", txn.write, "x", 6)
        self.check_forbids("set up already", self.log.set_up, "x", 7)
        self.check_forbids("gives out by itself", txn.write, "x", VALUE + 9)
        txn.abort()
        self.check_forbids("already", self.log.transaction(1).write, "x", 5)
        self.log.withdraw(txn)
        self.log.transaction(1).write("x", 5)

    def test_outcomes(self):
        txn = self.log.transaction(1)
        txn.write("x")
        txn.commit(2)
        for call in (txn.abort, txn.in_doubt):
            self.check_forbids("logged as committed already", call)
        self.check_forbids("logged as committed already", txn.commit, 3)
        self.check_forbids("is over", txn.write, "x")
        self.check_forbids("is over", txn.read, "x", 1)
        self.check_forbids("isn't in doubt", self.log.resolve, txn, commit=3)
        self.check_forbids("isn't in doubt", self.log.resolve, 17, aborted=True)
        self.check_forbids("has no line in this log yet", self.log.withdraw, ID + 1)
        self.log.withdraw(txn)
        self.check_forbids("isn't in this log", self.log.withdraw, txn)
        doubtful = self.log.transaction(1)
        doubtful.in_doubt()
        self.check_forbids("either", self.log.resolve, doubtful, commit=3, aborted=True)
        self.check_forbids("logged as indoubt already", doubtful.in_doubt)

    def test_stamps(self):
        for number in (-1, 2 ** 64, 1.5, "1"):
            self.check_forbids("start is a whole number", self.log.transaction, number)
        self.check_forbids("64 bits", self.log.transaction, 2 ** 63)
        txn = self.log.transaction(4)
        txn.write("x")
        for number in (None, -1, 1.5, "5"):
            self.check_forbids("needs the database's number", txn.commit, number)
        self.check_forbids("before its start", txn.commit, 4)
        self.check_forbids("64 bits", txn.commit, 2 ** 63)
        other = self.log.transaction()
        other.write("x")
        self.check_forbids("isn't known", other.commit, 5)
        third = self.log.transaction(stamps=COMMIT_ORDER)
        self.check_forbids("order of commits", third.commit)

    def test_sizes(self):
        txn = self.log.transaction(1)
        for _ in range(4096):
            txn.read("x", None)
        self.check_forbids("at most 4096 operations", txn.read, "x", None)
        txn.commit()
        self.assertEqual(len(json.loads(self.text())["ops"]), 4096)
        txn = self.log.transaction(1)
        with self.assertRaisesRegex(LogError, "over 1048576 bytes"):
            for _ in range(4096):
                txn.write("\0" * 128)  # six bytes each
        txn.abort()
        line = self.file.getvalue().splitlines()[1]
        self.assertLessEqual(len(line), 1_048_576)
        edit_of(line, Place(0, 1), {})

    def test_versions(self):
        txn = self.log.transaction(1)
        txn.write("x", VERSION)
        txn.write("x", VERSION)
        self.check_forbids("written twice", txn.commit, 2)
        txn = self.log.transaction(1)
        txn.write("x", VERSION)
        self.check_forbids("version of the key 'x'", txn.commit, 2, versions={"x": "two"})

    def test_savepoints(self):
        txn = self.log.transaction(1)
        part = txn.savepoint()
        part.write("x")
        self.check_forbids("savepoint is open", txn.write, "x")
        self.check_forbids("savepoint is open", txn.commit, 2)
        part.keep()
        self.check_forbids("left already", part.write, "x")
        self.check_forbids("left already", part.roll_back)

    def test_clients(self):
        for client in (0, -1, 1.0, 10 ** 12, None):
            with self.assertRaisesRegex(LogError, "client's number"):
                sicheck.Log(self.file, client=client)
        with self.assertRaisesRegex(LogError, "stamps are"):
            sicheck.Log(self.file, client=1, stamps="after")

    def test_ids_end(self):
        self.log._counts = iter([999_999])
        self.assertEqual(self.log.transaction(1).id, 3_999_999)
        self.check_forbids("ids of the next client", self.log.transaction, 1)

    def test_another_process(self):
        with tempfile.TemporaryDirectory() as folder:
            log = sicheck.Log(f"{folder}/log", client=1)
            self.assertEqual(_in_a_fork(log), b"refused")
            self.assertEqual(os.path.getsize(f"{folder}/log"), 0)


def _in_a_fork(log):
    """What a forked child gets when it uses its parent's log."""
    reading, writing = os.pipe()
    child = os.fork()
    if child == 0:
        try:
            log.set_up("x", 1)
            os.write(writing, b"written")
        except LogError:
            os.write(writing, b"refused")
        finally:
            os._exit(0)
    os.waitpid(child, 0)
    os.close(writing)
    with os.fdopen(reading, "rb") as answer:
        return answer.read()


class Files(unittest.TestCase):
    """Logs in files, and those that go on."""

    def setUp(self):
        folder = tempfile.TemporaryDirectory()
        self.addCleanup(folder.cleanup)
        self.path = os.path.join(folder.name, "client-3.jsonl")
        self.folder = folder.name

    def log(self, **options):
        log = sicheck.Log(self.path, client=3, **options)
        self.addCleanup(log.close)
        return log

    def lines(self):
        with open(self.path, "rb") as file:
            return file.read().splitlines()

    def test_by_the_variable(self):
        before = os.environ.get("LOGS")
        os.environ["LOGS"] = self.folder
        try:
            log = sicheck.Log(client=3)
        finally:
            del os.environ["LOGS"]
            if before is not None:
                os.environ["LOGS"] = before
        log.set_up("x", 1)
        log.close()
        self.assertEqual(self.lines(), [b'{"do":"setup","key":"x","value":1}'])
        with self.assertRaisesRegex(ValueError, "closed"):
            log.set_up("y", 1)

    def test_a_log_of_before_is_refused(self):
        with self.log() as log:
            log.set_up("x", 1)
        with self.assertRaisesRegex(LogError, "holds lines already"):
            self.log()
        self.assertEqual(len(self.lines()), 1)

    def test_two_logs_of_one_process_share_a_file(self):
        first = self.log()
        first.set_up("x", 1)
        second = sicheck.Log(self.path, client=4)
        self.addCleanup(second.close)
        second.set_up("y", 1)
        self.assertEqual(len(self.lines()), 2)

    def test_resume(self):
        """Set-up keys are known, and those in doubt can be resolved: one as it is, two by a line of their own. Ids begin at the next block."""
        with self.log() as log:
            log.set_up("x", 1)
            for stamps in (AFTER, COMMIT_ORDER):
                txn = log.transaction(None if stamps is COMMIT_ORDER else 4, stamps=stamps)
                txn.write("x")
                txn.in_doubt()
            txn = log.transaction(4)
            txn.write("y", VERSION)
            txn.in_doubt()
            log.transaction(4).abort()
        with open(self.path, "ab") as file:
            file.write(b'{"do":"txn","id":4000009,"start":0,"status":"indoubt","ops":[]}\n{"do":"txn","id":3000005,"st')
        log = self.log(resume=True)
        self.assertEqual(log.doubts, (ID, ID + 1, ID + 2))
        with self.assertRaisesRegex(LogError, "set up already"):
            log.set_up("x", 2)
        log.resolve(ID, commit=5)
        log.resolve(ID + 1, commit=6)
        log.resolve(ID + 2, commit=7)
        self.assertEqual(log.transaction(7).id, 3_001_000)
        told = self.lines()
        self.assertEqual(told[6], b'{"do":"txn","id":3000005,"st')  # cut off, and closed by the next line
        self.assertEqual([json.loads(line) for line in told[7:]], [
            {"do": "resolve", "id": ID, "status": "committed", "commit": 11},
            {"do": "withdraw", "id": ID + 1, "again": True},
            {"do": "txn", "id": ID + 1, "start": 12, "status": "committed", "commit": 13, "ops": [["w", "x", VALUE + 4096]]},
            {"do": "withdraw", "id": ID + 2, "again": True},
            {"do": "txn", "id": ID + 2, "start": 10, "status": "committed", "commit": 15, "ops": [["w", "y", 7]]}])
        log.close()
        self.assertEqual(self.log(resume=True).doubts, ())

    def test_a_reader_that_has_gone_is_told(self):
        os.mkfifo(self.path)
        reading = os.open(self.path, os.O_RDONLY | os.O_NONBLOCK)
        log = self.log()
        os.close(reading)
        with self.assertRaises(BrokenPipeError), log.transaction(1) as txn:
            txn.write("x")
            txn.commit(2)

    def test_a_full_disk_is_told(self):
        """`/dev/full` takes nothing: the error says so, and the transaction isn't logged."""
        log = sicheck.Log("/dev/full", client=1)
        self.addCleanup(log.close)
        with self.assertRaises(OSError):
            log.set_up("x", 1)
        log._writer._fd, kept = os.open(self.path, os.O_WRONLY | os.O_CREAT), log._writer._fd
        log.set_up("x", 1)
        os.close(kept)
        self.assertEqual(self.lines(), [b'{"do":"setup","key":"x","value":1}'])


if __name__ == "__main__":
    unittest.main()
