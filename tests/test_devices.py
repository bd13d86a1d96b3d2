"""Tests the built program on devices that fail: a file that may grow no further after each of many sizes, a file system of a
few kilobytes that runs full, a pipe whose reader ends, an input that is cut off while it is read, and a pipe whose
writer dies in the middle of a line. Each time it ends with the status and the line that the manual has, and what it
wrote is a beginning of its output. A fault is told at once, while another source is still open."""

import os
import select
import subprocess
import time
import unittest

from running import FAULTY, LONG_OUTPUT, PROGRAM, ProgramTest, run, summary
from refusals import Whole

CANNOT_WRITE = "sicheck: cannot write\n"
WORDS = [PROGRAM, *LONG_OUTPUT, str(FAULTY)]
# The program with its output on a file system of so many kilobytes, in a folder, which this command alone sees.
ON_A_SMALL_FILE_SYSTEM = """
mount -t tmpfs -o "size=$0k" none "$1/small" || exit 100
status=0
"${@:2}" > "$1/small/out" || status=$?
cp "$1/small/out" "$1/out" && exit "$status"
"""
ALONE = ["unshare", "--map-root-user", "--mount"]
# Within so many seconds a fault is told, on a machine that has other work too.
AT_ONCE = 5


class Writing(ProgramTest):
    def setUp(self):
        super().setUp()
        self.whole = Whole(run(WORDS))

    def assert_cut(self, ran, text, where):
        """The program ended since it could write no more, after this beginning of its output."""
        self.assertEqual((ran.status, ran.complaint), (2, CANNOT_WRITE), where)
        self.assertTrue(self.whole.text.startswith(text), f"{where}: what was written is no beginning of the output")

    def test_file_that_may_grow_no_further(self):
        tried, room = 0, 0
        while room * 1024 < len(self.whole.text):
            # (a write is to fail, and not to end the program)
            with open(self.work / "out", "wb") as out:
                ran = run(WORDS, bounds=f"trap '' XFSZ && ulimit -f {room}", stdout=out)
            text = (self.work / "out").read_bytes()
            self.assert_cut(ran, text, f"a file of {room} KB")
            self.assertEqual(len(text), room * 1024, f"a file of {room} KB")
            tried, room = tried + 1, room + 1 + room // 16
        self.assertGreaterEqual(tried, 20, "too few sizes were tried")

    def test_file_system_that_runs_full(self):
        (self.work / "small").mkdir()
        if run([*ALONE, "mount", "-t", "tmpfs", "none", self.work / "small"]).status != 0:
            self.skipTest("no file system may be mounted here")
        for room in (4, 8, 12, 32, 64):
            with self.subTest(kilobytes=room):
                ran = run([*ALONE, "bash", "-c", ON_A_SMALL_FILE_SYSTEM, str(room), self.work, *WORDS])
                text = (self.work / "out").read_bytes()
                self.assert_cut(ran, text, f"a full file system of {room} KB")
                self.assertEqual(len(text), room * 1024)

    def assert_cut_by_reader(self, taken):
        """The reader of the output takes so many bytes and ends."""
        with subprocess.Popen(WORDS, stdout=subprocess.PIPE, stderr=subprocess.PIPE, bufsize=0) as program:
            self.addCleanup(program.kill)
            text = b""
            while len(text) < taken and (more := program.stdout.read(taken - len(text))):
                text += more
            program.stdout.close()
            complaint = program.stderr.read().decode()
            self.assertEqual((program.wait(60), complaint), (2, CANNOT_WRITE))
            self.assertEqual(text, self.whole.text[:taken])

    def test_reader_that_takes_a_byte(self):
        self.assert_cut_by_reader(1)

    def test_reader_that_takes_100_bytes(self):
        self.assert_cut_by_reader(100)

    # (more is left than a pipe holds, so that the program can't have written all before)

    def test_reader_that_ends_in_the_middle(self):
        self.assert_cut_by_reader((len(self.whole.text) - 90_000) // 2)

    def test_reader_that_ends_late(self):
        self.assert_cut_by_reader(len(self.whole.text) - 90_000)


class Reading(ProgramTest):
    def test_log_that_is_cut_off_while_it_is_read(self):
        """Nobody reads the output until then, so that the program has to wait in the middle. Its answer is that of a
        beginning of the log."""
        log = FAULTY.read_bytes() * 65
        (self.work / "log").write_bytes(log)
        words = [PROGRAM, *LONG_OUTPUT]
        with subprocess.Popen([*words, self.work / "log"], stdout=subprocess.PIPE, stderr=subprocess.PIPE) as program:
            self.addCleanup(program.kill)
            time.sleep(1)
            os.truncate(self.work / "log", 1)
            text, complaint = program.communicate(timeout=60)
        self.assertEqual(complaint, b"")
        for length in (1, *range(4096, len(log), 4096)):
            ran = subprocess.run(words, input=log[:length], capture_output=True, timeout=60, check=False)
            if (ran.stdout, ran.returncode) == (text, program.returncode):
                return
        last = text.decode().splitlines()[-1:]
        self.fail(f"its answer is that of no beginning of the log: status {program.returncode}, {last}")

    def test_writer_that_dies_in_the_middle_of_a_line(self):
        """It stands beside one that goes on."""
        first, second = self.work / "first", self.work / "second"
        os.mkfifo(first)
        os.mkfifo(second)
        with subprocess.Popen([PROGRAM, "check", first, second], stdout=subprocess.PIPE) as program:
            self.addCleanup(program.kill)
            begins = """exec 3> "$0"; printf '{"do":"txn","id":7,' >&3; kill -9 $$"""
            self.assertEqual(run(["bash", "-c", begins, first]).status, -9)
            second.write_text('{"do":"setup","key":"x","value":3}\n')
            text = program.communicate(timeout=60)[0].decode()
        refused = "refused source=0 line=1 code=2 reason=not-json\n"
        self.assertEqual((program.returncode, text), (10, refused + summary(refused=1)))


class Telling(ProgramTest):
    """A fault is told while a pipe still gives lines, and the program ends with 2 once its read returns."""

    def setUp(self):
        super().setUp()
        self.pipe = self.work / "pipe"
        os.mkfifo(self.pipe)

    def begun(self, *files, stdout=subprocess.DEVNULL):
        """Returns the program over the pipe and these files, and the pipe's end that is written to."""
        words = [PROGRAM, "check", self.pipe, *files]
        # (closed below, where it has ended)
        program = subprocess.Popen(words, stdout=stdout, stderr=subprocess.PIPE, bufsize=0)
        self.addCleanup(program.stderr.close)
        self.addCleanup(program.wait)
        self.addCleanup(program.kill)
        writer = open(self.pipe, "wb", buffering=0)
        self.addCleanup(writer.close)
        return program, writer

    def assert_told(self, program, line):
        """The program tells this line at once."""
        told, until = b"", time.monotonic() + AT_ONCE
        while not told.endswith(b"\n") and (left := until - time.monotonic()) > 0:
            if select.select([program.stderr], [], [], left)[0]:
                told += program.stderr.read(1) or b"(the end)\n"
        self.assertEqual(told.decode(), line)
        self.assertIsNone(program.poll(), "it ended while a source was open")

    def assert_faulty(self, program):
        """The program ends with 2, and tells nothing more."""
        self.assertEqual(program.wait(60), 2)
        self.assertEqual(program.stderr.read(), b"")

    def test_folder_beside_a_pipe_that_is_written_to(self):
        program, writer = self.begun(self.work)
        writer.write(b'{"do":"setup","key":"x","value":3}\n')
        self.assert_told(program, "sicheck: cannot read source 1\n")
        with self.assertRaises(BrokenPipeError):
            for _ in range(60_000):
                writer.write(b'{"do":"withdraw","id":1}\n')
                time.sleep(0.001)
        self.assert_faulty(program)

    def test_folder_beside_a_pipe_that_is_closed(self):
        program, writer = self.begun(self.work)
        self.assert_told(program, "sicheck: cannot read source 1\n")
        writer.close()
        self.assert_faulty(program)

    def test_full_disk_beside_an_open_pipe(self):
        with open("/dev/full", "wb") as full:
            program, writer = self.begun(stdout=full)
        writer.write(b"x\n")
        self.assert_told(program, CANNOT_WRITE)
        writer.close()
        self.assert_faulty(program)

    def test_folder_beside_a_line_without_an_end(self):
        ran = run([PROGRAM, "check", "/dev/zero", self.work])
        self.assertEqual((ran.status, ran.text, ran.complaint), (2, b"", "sicheck: cannot read source 1\n"))


if __name__ == "__main__":
    unittest.main()
