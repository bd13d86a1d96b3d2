"""Logs that go on after their client was killed: no id and no value comes again, whenever it was killed, and no correct database is found
guilty for it."""
import json
import os
import random
import signal
import sys
import tempfile
import unittest
from unittest import mock

import sicheck
from sicheck import COMMIT_ORDER, VERSION, LogError
from sicheck.lives import Life
from sicheck.writing import LineWriter
from small_database import StoredDatabase

FIRST = 3_000_001  # the first id of client 3


class LifeTest(unittest.TestCase):
    def setUp(self):
        folder = tempfile.TemporaryDirectory(dir="/dev/shm" if os.path.isdir("/dev/shm") else None)  # where syncing costs nothing
        self.addCleanup(folder.cleanup)
        self.folder = folder.name
        self.path = os.path.join(self.folder, "client-3.jsonl")
        self.life = self.path + ".life-3"

    def log(self, path=None, client=3, **options):
        log = sicheck.Log(path or self.path, client=client, **options)
        self.addCleanup(log.close)
        return log

    def write(self, path, text):
        with open(path, "w", encoding="utf-8") as file:
            file.write(text)

    def read(self, path):
        with open(path, "r", encoding="utf-8") as file:
            return file.read()

    def lines(self):
        return [json.loads(line) for line in self.read(self.path).splitlines()]

    def check_refused(self, words, *arguments, **options):
        with self.assertRaisesRegex(LogError, words):
            self.log(*arguments, **options)


class Blocks(LifeTest):
    def test_each_opening_has_a_block_of_its_own(self):
        """Also one that logged nothing, and one whose log was taken away."""
        for opening, wanted in enumerate((FIRST, 3_001_000, 3_002_000)):
            with self.log(resume=opening > 0) as log:
                self.assertEqual(log.transaction(1).id, wanted)
            self.assertEqual(self.read(self.life), f"{opening + 1}\n")
        os.unlink(self.path)
        with self.log() as log:
            txn = log.transaction(1)
            self.assertEqual((txn.id, txn.write("x")), (3_003_000, 3_003_000 * 4096))

    def test_a_block_that_is_used_up(self):
        with self.log() as log:
            ids = [log.transaction(1).id for _ in range(1_000)]
        self.assertEqual((ids[0], ids[998], ids[999]), (FIRST, 3_000_999, 3_001_000))
        self.assertEqual(self.read(self.life), "2\n")
        self.assertEqual(self.log().transaction(1).id, 3_002_000)

    def test_all_transactions_that_fit(self):
        log = self.log()
        with mock.patch("os.fsync"):
            self.assertTrue(all(log._next_id() == 3_000_000 + count for count in range(1, 1_000_000)))
        with self.assertRaisesRegex(LogError, "client 3 has no ids left"):
            log.transaction(1)

    def test_all_openings_that_fit(self):
        with mock.patch("os.fsync"):
            for opening in range(1_000):
                with sicheck.Log(self.path, client=3) as log:
                    self.assertEqual(log._next_id(), 3_000_000 + max(1, opening * 1_000))
        self.check_refused("client 3 has no ids left")

    def test_a_name_that_leads_to_the_file(self):
        """The lives of a file are the same, whichever name leads to it."""
        with self.log() as log:
            log.transaction(1).abort()
        os.symlink(self.path, f"{self.folder}/other")
        self.assertEqual(self.log(f"{self.folder}/other", resume=True).transaction(1).id, 3_001_000)

    def test_several_clients_of_one_file(self):
        with self.log() as first, self.log(client=4) as second:
            first.transaction(1).abort()
            second.transaction(1).abort()
        with self.log(resume=True), self.log(client=4) as second:
            self.assertEqual(second.transaction(1).id, 4_001_000)
            # What this one did before isn't known.
            self.check_refused("doesn't say which ids of client 5", client=5)


class Refused(LifeTest):
    def test_lines_of_nobody_knows_when(self):
        self.write(self.path, '{"do":"withdraw","id":1}\n')
        self.check_refused("doesn't say which ids of client 3 were handed out before: name another client number and file", resume=True)
        os.unlink(self.life)
        self.check_refused("doesn't say which ids", resume=True)

    def test_a_life_file_of_before_the_log(self):
        with self.log() as log:
            for _ in range(1_500):
                log.transaction(1).abort()
        self.write(self.life, "1\n")
        self.check_refused("beyond those", resume=True)

    def test_a_life_file_that_says_something_else(self):
        for text in ("x", "1", "-1\n", "1001\n", "9" * 5_000 + "\n"):
            self.write(self.life, text)
            self.check_refused("doesn't say how many blocks")

    def test_what_cannot_go_on(self):
        os.mkfifo(f"{self.folder}/pipe")
        with open(f"{self.folder}/open", "w", encoding="utf-8") as file:
            for target in (f"{self.folder}/pipe", "/dev/null", file):
                self.check_refused("only a file that is named by its path can go on", target, resume=True)
        with self.log("/dev/null") as log:
            self.assertEqual(log.transaction(1).id, FIRST)
        self.assertFalse(os.path.exists("/dev/null.life-3"))

    def test_a_life_file_that_cannot_be_kept(self):
        os.mkdir(self.life)
        self.check_refused("cannot keep in .*client-3.jsonl.life-3 which ids are taken.*: Is a directory")
        os.rmdir(self.life)
        for call in ("os.write", "os.fsync", "os.rename"):
            with mock.patch(call, side_effect=OSError(28, "No space left on device")):
                self.check_refused("cannot keep in .*: No space left on device")
        self.assertEqual(sorted(os.listdir(self.folder)), ["client-3.jsonl", "client-3.jsonl.life-3"])
        self.assertEqual(self.log().transaction(1).id, FIRST)

    def test_a_folder_that_cannot_be_synced(self):
        """The number may be there or not: its ids are never handed out."""
        with mock.patch("sicheck.lives._sync_folder", side_effect=OSError(5, "Input/output error")):
            self.check_refused("cannot keep in .*: Input/output error")
        self.assertEqual(self.log().transaction(1).id, 3_001_000)

    def test_no_block_without_its_number(self):
        log = self.log()
        for _ in range(999):
            log.transaction(1)
        with mock.patch("os.fsync", side_effect=OSError(28, "No space left on device")):
            for _ in range(2):
                with self.assertRaisesRegex(LogError, "No space left"):
                    log.transaction(1)
        self.assertEqual(log.transaction(1).id, 3_001_000)

    def test_another_process(self):
        """One that has the log open excludes others, and once it is killed no more, even where its child lives."""
        (reading, writing), (asking, held) = os.pipe(), os.pipe()
        holder = os.fork()
        if holder == 0:
            try:
                os.close(held)
                log = sicheck.Log(self.path, client=3)
                if os.fork() == 0:
                    os.write(writing, b"open\n")
                os.read(asking, 1)  # until the test ends
                log.close()
            finally:
                os._exit(1)
        os.close(writing)
        os.close(asking)
        try:
            with os.fdopen(reading) as told:
                self.assertEqual(told.readline(), "open\n")
                self.check_refused("another process has .*client-3.jsonl open for client 3")
                os.kill(holder, signal.SIGKILL)
                os.waitpid(holder, 0)
                self.assertEqual(self.log().transaction(1).id, 3_001_000)
        finally:
            os.close(held)

    def test_two_of_one_client_in_a_process(self):
        """Whatever they write to. One that nobody holds is open no more."""
        log = self.log(f"{self.folder}/one")
        self.check_refused("a log of client 3 is open in this process already")
        self.check_refused("a log of client 3 is open in this process already", sys.stderr)
        log.close()
        dropped = sicheck.Log(self.path, client=3)
        dropped.transaction(1)
        del dropped
        self.assertEqual(self.log().transaction(1).id, 3_001_000)
        self.log(client=4)


class Recalled(LifeTest):
    def test_values_of_the_caller(self):
        """Known as far as they were logged and not withdrawn; the log's own don't count."""
        with self.log() as log:
            log.set_up("s", 9)
            for key in ("a", "b", "c"):
                txn = log.transaction(1)
                txn.write(key, 5)
                txn.write(key)
                if key != "c":
                    txn.commit(2)
                if key == "b":
                    log.withdraw(txn)
        log = self.log(resume=True)
        txn = log.transaction(1)
        for key, value in (("a", 5), ("s", 9), ("z", FIRST * 4096)):
            with self.assertRaises(LogError):
                txn.write(key, value)
        for key in ("b", "c"):
            txn.write(key, 5)
        log.withdraw(FIRST)
        txn.write("a", 5)
        for number in (FIRST, FIRST + 1, FIRST + 2):
            with self.assertRaisesRegex(LogError, "isn't in this log|no line in this log"):
                log.withdraw(number)

    def test_a_doubt_that_is_logged_again(self):
        """Killed between the withdrawal and the new line: the transaction is in doubt still, whatever becomes of it."""
        for options, told in (({"commit": 5}, "committed"), ({"aborted": True}, "aborted")):
            with self.subTest(told):
                self.setUp()
                with self.log(stamps=COMMIT_ORDER) as log:
                    txn = log.transaction()
                    txn.write("x", 7)
                    txn.in_doubt()
                    txn.commit(5)
                whole = self.read(self.path)
                self.write(self.path, whole[:whole.index("again") + 30])
                for _ in range(2):
                    with self.log(resume=True) as log:
                        self.assertEqual(log.doubts, (FIRST,))
                        with self.assertRaisesRegex(LogError, "already"):
                            log.transaction().write("x", 7)
                with self.log(resume=True) as log:
                    log.resolve(FIRST, **options)
                    self.assertEqual(log.doubts, ())
                report = sicheck.check(self.path, expect=None)
                self.assertEqual([it.reason for it in report.refusals], ["not-json"])  # the line that was cut off
                self.assertEqual((report.transactions, report.findings), (1, ()))
                self.assertEqual(self.lines_of_transactions()[-1]["status"], told)
                with self.log(resume=True) as log:
                    self.assertEqual(log.doubts, ())

    def lines_of_transactions(self):
        return [json.loads(line) for line in self.read(self.path).splitlines() if line.endswith("}") and '"txn"' in line]

    def test_a_disk_that_fills_between_the_two(self):
        """The withdrawal is written, and not all of the line behind it. Once there is room the line alone is written."""
        log = self.log()
        txn = log.transaction(4)
        txn.write("x", VERSION)
        txn.in_doubt()
        with full_after(60):
            with self.assertRaises(OSError):
                txn.commit(5)
        self.assertEqual((txn.status, log.doubts), ("indoubt", (FIRST,)))
        txn.commit(5)
        self.assertEqual([it.reason for it in sicheck.check(self.path).refusals], ["not-json"])
        self.assertEqual(self.read(self.path).count("withdraw"), 1)

    def test_a_disk_that_fills_before_the_last_byte(self):
        """The line is whole, and its end comes with the next one: it isn't written twice."""
        log = self.log()
        txn = log.transaction(4)
        txn.write("x")
        txn.commit(5)
        length = os.path.getsize(self.path)
        txn = log.transaction(5)
        txn.write("x")
        with full_after(length - 1):
            txn.commit(6)
        self.assertEqual(txn.status, "committed")
        log.transaction(5).abort()
        report = sicheck.check(self.path).assert_passed()
        self.assertEqual(report.transactions, 3)


def full_after(room):
    """The disk takes so many bytes more."""
    left, write = [room], os.write

    def writes(file, data):
        if not left[0]:
            raise OSError(28, "No space left on device")
        count = write(file, bytes(data[:left[0]]))
        left[0] -= count
        return count
    return mock.patch("os.write", writes)


class Killed(LifeTest):
    """A client of a correct database is killed in each of its lives, and goes on under its number. Another client reads what it did."""
    POINTS = ("the new life file", "the life file", "id", "commit", "before", "within", "after")

    def test_between_commit_and_line(self):
        """Transactions that weren't logged are unknown, and nothing is found that isn't there."""
        report = self.judged(is_doubt_first=False)
        self.assertEqual(report.counts().keys() - {"unknown"}, set(), report.findings[:5])
        self.assertIn("unknown", report.counts())

    def test_between_doubt_and_line(self):
        """Where the doubt is logged first, all is known."""
        report = self.judged(is_doubt_first=True)
        self.assertEqual((report.counts(), report.short), ({}, None))

    def judged(self, is_doubt_first):
        seed = random.randrange(10 ** 6)
        print(f"seed {seed}", file=sys.stderr)
        chance, database = random.Random(seed), StoredDatabase(f"{self.folder}/database")
        reader, killed = sicheck.Log(f"{self.folder}/client-4.jsonl", client=4), 0
        self.addCleanup(reader.close)
        for life in range(3 * len(self.POINTS)):
            point, count = self.POINTS[life % len(self.POINTS)], chance.randrange(3)
            killed += self.one_life(chance.random(), point, count, is_doubt_first)
            read_all(database, reader)
        self.assertEqual(killed, 3 * len(self.POINTS))
        self.one_life(chance.random(), None, 0, is_doubt_first)
        read_all(database, reader)
        report = sicheck.check([self.path, f"{self.folder}/client-4.jsonl"], explain=True)
        self.assertEqual({it.reason for it in report.refusals}, {"not-json"})  # lines that were cut off
        self.assertGreater(report.transactions, 3 * len(self.POINTS))
        return report

    def one_life(self, seed, point, count, is_doubt_first):
        """A life in a process of its own. Returns whether it was killed."""
        process = os.fork()
        if process == 0:
            status = 1
            try:
                live(self.path, f"{self.folder}/database", random.Random(seed), point, count, is_doubt_first)
                status = 0
            finally:
                os._exit(status)
        ended = os.waitstatus_to_exitcode(os.waitpid(process, 0)[1])
        self.assertIn(ended, (0, -signal.SIGKILL))
        return ended != 0


def die():
    os.kill(os.getpid(), signal.SIGKILL)


def live(path, database, chance, point, count, is_doubt_first):
    """One life: it settles what is in doubt, and makes transactions until it dies at the point."""
    write_number, write = Life._write, LineWriter._write_all
    if point == "the new life file":
        os.rename = lambda *_: die()
    if point == "the life file":
        Life._write = lambda self, number: (write_number(self, number), die())
    database = StoredDatabase(database)
    log = sicheck.Log(path, client=3, resume=True)
    for number in log.doubts:
        commit = database.commit_of(number)
        log.resolve(number, commit=commit, aborted=commit is None)
    for which in range(4):
        one_transaction(database, log, chance, point if which == count else None, is_doubt_first, write)


def one_transaction(database, log, chance, point, is_doubt_first, write):
    snapshot = database.begin()
    txn = log.transaction(snapshot)
    if point == "id":
        die()
    key = f"k{chance.randrange(2)}"
    txn.read(key, database.read(key, snapshot))
    writes = {key: txn.write(key)}
    if is_doubt_first:
        txn.in_doubt()
    commit = database.commit(writes, snapshot, txn.id)
    if point == "commit":
        die()
    if point is not None:
        LineWriter._write_all = lambda self, text, before: dying(write, self, text, before, point)
    txn.commit(commit)


def dying(write, writer, text, before, point):
    """The line is written not at all, in half, or whole, and then the client is killed."""
    if point != "before":
        write(writer, text if point == "after" else text[:len(text) // 2], before)
    die()


def read_all(database, log):
    snapshot = database.begin()
    with log.transaction(snapshot) as txn:
        for key in ("k0", "k1"):
            txn.read(key, database.read(key, snapshot))
        txn.commit()


if __name__ == "__main__":
    unittest.main()
