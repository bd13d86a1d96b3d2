"""Holds what the tests of the built program share: the program, a folder of each test's own, and how a run has to end.
Another program than the built one is named by the variable PROGRAM."""

import os
import shutil
import sys
import tempfile
import unittest
from pathlib import Path

sys.dont_write_bytecode = True
from refusals import run  # noqa: E402 (it writes no bytecode beside itself)

ROOT = Path(__file__).resolve().parents[1]
os.environ["SICHECK_PROVED"] = "1"  # what isn't proved is never tested in its place
PROGRAM = os.path.abspath(os.environ.get("PROGRAM") or ROOT / "crates/sicheck/out/sicheck")
# A log with findings, and the words with which its output is long.
FAULTY = ROOT / "examples/etcd/faulty.jsonl"
LONG_OUTPUT = ["check", "--every", "1", "--explain"]


def summary(transactions=0, findings=0, refused=0, verdict="clean"):
    """Returns the last line of an output."""
    return f"transactions={transactions} findings={findings} refused={refused} verdict={verdict}\n"


class ProgramTest(unittest.TestCase):
    """A test with a folder of its own, below the repository's root."""

    maxDiff = 2000

    def setUp(self):
        os.chdir(ROOT)
        self.work = Path(tempfile.mkdtemp())
        self.addCleanup(shutil.rmtree, self.work, ignore_errors=True)

    def assert_ends(self, words, status, text="", complaint="", **how):
        """The program on these words ends with this status, and writes these texts to standard output and error."""
        ran = run([PROGRAM, *words], **how)
        was = ran.status, ran.text.decode(errors="replace"), ran.complaint
        self.assertEqual(was, (status, text, complaint), told(words))

    def assert_complains(self, words, beginning):
        """The program on these words ends with status 2, and writes nothing but a complaint that begins so."""
        ran = run([PROGRAM, *words])
        self.assertEqual((ran.status, ran.text), (2, b""), told(words))
        self.assertEqual(ran.complaint[: len(beginning)], beginning, told(words))


def told(words):
    """Returns the words of a command line for a message, the long ones cut."""
    return f"sicheck {' '.join(str(it)[:80] for it in words)}"
