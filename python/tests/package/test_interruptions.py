"""Exceptions of signals' handlers, as that of Ctrl-C, wherever they fall: a line is whole or isn't there, and the log knows which."""
import fcntl
import json
import os
import random
import signal
import sys
import tempfile
import termios
import threading
import time
import unittest
from array import array
from unittest import mock

import sicheck
import sicheck.turns
from sicheck import LogError


class Alarm(Exception):
    """What the handler of the alarm raises: an error as a test's time limit raises it."""


class Interruption(BaseException):
    """The same as one that isn't an `Exception`, as Ctrl-C's."""


class InterruptionTest(unittest.TestCase):
    def setUp(self):
        folder = tempfile.TemporaryDirectory(dir="/dev/shm" if os.path.isdir("/dev/shm") else None)
        self.addCleanup(folder.cleanup)
        self.folder = folder.name
        self.path = f"{self.folder}/log"
        self.kind = Interruption
        before = signal.signal(signal.SIGALRM, self.interrupt)
        self.addCleanup(signal.signal, signal.SIGALRM, before)
        self.addCleanup(signal.setitimer, signal.ITIMER_REAL, 0)

    def interrupt(self, *_):
        raise self.kind

    def check_agrees(self, txns, lines):
        """Each transaction has the lines that its status says, and no other one."""
        told = {}
        for line in lines:
            it = json.loads(line)
            told.setdefault(it["id"], []).append(it["status"])
        for txn in txns:
            self.assertIn(told.pop(txn.id, None), {None: (None,), "aborted": (["aborted"], ["indoubt", "aborted"]), "indoubt": (["indoubt"],),
                                                   "committed": (["committed"], ["indoubt", "committed"])}[txn.status])
        self.assertEqual(told, {})


class Anywhere(InterruptionTest):
    def run_clients(self, log, seed, count, keys=1):
        """Transactions that are interrupted at a time by chance."""
        chance, txns = random.Random(seed), []
        for number in range(count):
            self.kind = chance.choice((Alarm, Interruption))
            try:
                try:
                    signal.setitimer(signal.ITIMER_REAL, 0.00002 + chance.random() * 0.0004)
                    self.run_client(log, txns, number, keys, chance.random() < 0.5)
                finally:
                    signal.setitimer(signal.ITIMER_REAL, 0)
            except (Alarm, Interruption):
                pass
        return txns

    @staticmethod
    def run_client(log, txns, number, keys, is_doubt_first):
        txn = log.transaction(2 * number)
        txns.append(txn)
        with txn:
            for key in range(keys):
                txn.write(f"k{key}")
            if is_doubt_first:
                txn.in_doubt()
            txn.commit(2 * number + 1)

    def test_file(self):
        seed = random.randrange(10 ** 6)
        print(f"seed {seed}", file=sys.stderr)
        with sicheck.Log(self.path, client=1) as log:
            txns = self.run_clients(log, seed, 600)
            for number in log.doubts:
                log.resolve(number, aborted=True)
        with open(self.path, encoding="utf-8") as file:
            lines = file.read().splitlines()
        doubtful = {txn.id for txn in txns if txn.status == "indoubt"}
        self.check_agrees([txn for txn in txns if txn.id not in doubtful], [it for it in lines if json.loads(it)["id"] not in doubtful])
        self.assertEqual(sicheck.check(self.path).refused, 0)

    def test_pipe_with_long_lines(self):
        """Of two pages each, to a pipe of one that another writer shares."""
        seed = random.randrange(10 ** 6)
        print(f"seed {seed}", file=sys.stderr)
        told = []
        other, reading = pipe_of_one_page(self.path)

        def read():
            with os.fdopen(reading, "rb") as pipe:
                told.extend(pipe.read().splitlines())
        thread = threading.Thread(target=read)
        with sicheck.Log(self.path, client=1) as log, sicheck.Log(self.path, client=2) as second:
            os.close(other)
            thread.start()
            sharing = threading.Thread(target=lambda: [second.transaction(1).abort() for _ in range(300)])
            sharing.start()
            txns = self.run_clients(log, seed, 150, keys=300)
            sharing.join()
        thread.join()
        lines = [json.loads(line) for line in told]
        self.check_agrees(txns, [line for line in told if json.loads(line)["id"] < 2_000_000])
        self.assertEqual(sum(it["id"] > 2_000_000 for it in lines), 300)


class AfterTheWrite(InterruptionTest):
    """The exception falls right behind a write, before anybody knows what it returned."""

    def test_each_outcome(self):
        for outcome in (lambda it: it.commit(3), lambda it: it.abort(), lambda it: it.in_doubt()):
            for self.kind in (Alarm, Interruption):
                path = f"{self.path}-{time.monotonic()}"
                with self.subTest(kind=self.kind), sicheck.Log(path, client=1) as log:
                    txn = log.transaction(1)
                    with self.assertRaises(self.kind), txn:
                        txn.write("x")
                        with mock.patch("os.write", then_a_signal(os.write)):
                            outcome(txn)
                    self.assertIsNotNone(txn.status)
                    with open(path, encoding="utf-8") as file:
                        self.check_agrees([txn], file.read().splitlines())

    def test_what_comes_after_a_doubt(self):
        with sicheck.Log(self.path, client=1) as log:
            txns = [log.transaction(1) for _ in range(3)]
            for txn in txns:
                txn.write("x")
                txn.in_doubt()
            for call in (lambda: txns[0].commit(3), lambda: log.resolve(txns[1], commit=4), lambda: log.withdraw(txns[2])):
                with self.assertRaises(Interruption), mock.patch("os.write", then_a_signal(os.write)):
                    call()
            self.assertEqual((log.doubts, txns[0].status, txns[1].status), ((), "committed", "committed"))
            with self.assertRaises(LogError):
                log.withdraw(txns[2])
        report = sicheck.check(self.path)
        self.assertEqual((report.refused, report.transactions, report.short), (0, 2, None))


def then_a_signal(write):
    def writes(file, data):
        count = write(file, data)
        signal.raise_signal(signal.SIGALRM)
        return count
    return writes


def pipe_of_one_page(path):
    """A named pipe that takes a page at once: its ends for writing and reading."""
    os.mkfifo(path)
    reading = os.open(path, os.O_RDONLY | os.O_NONBLOCK)
    writing = os.open(path, os.O_WRONLY)
    fcntl.fcntl(writing, 1031, 4_096)  # F_SETPIPE_SZ, which Python names from 3.10 on
    os.set_blocking(reading, True)
    return writing, reading


class Within(InterruptionTest):
    """A line that nobody takes yet is interrupted in its middle."""

    def setUp(self):
        super().setUp()
        self.writing, self.reading = pipe_of_one_page(self.path)
        self.addCleanup(os.close, self.writing)
        self.log = sicheck.Log(self.path, client=1)
        self.struck = threading.Event()

    def commit(self, kind, times=1):
        """A transaction with a line of some pages, interrupted so often once the pipe is full."""
        self.kind = kind
        self.txn = self.log.transaction(1)
        for key in range(600):
            self.txn.write(f"k{key}")
        threading.Thread(target=self.strike, args=(times,)).start()
        with self.txn:
            self.txn.commit(2)

    def strike(self, times):
        waiting = array("i", [0])
        while waiting[0] < 4_096:
            fcntl.ioctl(self.reading, termios.FIONREAD, waiting)
            time.sleep(0.01)
        for _ in range(times):
            signal.pthread_kill(threading.main_thread().ident, signal.SIGALRM)
            time.sleep(0.2)
        self.struck.set()

    def lines(self):
        """All that is in the pipe, once nobody writes to it."""
        os.set_blocking(self.reading, False)
        data = b""
        while True:
            try:
                data += os.read(self.reading, 1 << 20)
            except BlockingIOError:
                return data.splitlines()

    def read(self, told):
        """Reads three pages of the line once it was interrupted, so that the pipe has room for the rest."""
        while not self.struck.wait(0.01):
            pass
        while sum(map(len, told)) < 12_288:
            told.append(os.read(self.reading, 4_096))

    def test_line_is_whole(self):
        for kind in (Alarm, Interruption):
            told, self.struck = [], threading.Event()
            reader = threading.Thread(target=lambda: self.read(told))
            reader.start()
            with self.assertRaises(kind):
                self.commit(kind)
            reader.join()
            self.assertEqual(self.txn.status, "committed")
            self.log.set_up(f"y{kind.__name__}", 1)
            first, second = b"".join([*told, b"\n".join(self.lines())]).splitlines()
            self.assertEqual((json.loads(first)["id"], json.loads(second)["do"]), (self.txn.id, "setup"))
            os.set_blocking(self.reading, True)
        self.log.close()

    def test_second_interruption(self):
        """It is raised at once, though nobody reads; nor does the end of the block wait for ever. The line is whole once somebody reads."""
        begin = time.monotonic()
        with mock.patch("sicheck.turns.PATIENCE", 0.5), self.assertRaises(Interruption):
            self.commit(Interruption, times=2)
        with mock.patch("sicheck.turns.PATIENCE", 0.5), self.assertRaisesRegex(LogError, "nobody reads the pipe"):
            self.log.set_up("z", 1)
        self.assertLess(time.monotonic() - begin, 30)
        told = []
        self.read(told)
        self.log.set_up("y", 1)
        first, second = b"".join([*told, b"\n".join(self.lines())]).splitlines()
        self.assertEqual((json.loads(first)["id"], json.loads(second)["do"]), (self.txn.id, "setup"))
        self.assertEqual(self.txn.status, "committed")
        self.log.close()

    def test_one_interruption_does_not_wait_for_ever(self):
        begin = time.monotonic()
        with mock.patch("sicheck.turns.PATIENCE", 0.3), self.assertRaises(Alarm):
            self.commit(Alarm)
        self.assertLess(time.monotonic() - begin, 30)
        self.read([])
        self.log.close()


if __name__ == "__main__":
    unittest.main()
