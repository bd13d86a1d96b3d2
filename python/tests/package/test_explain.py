"""An answer beside its log in the database's own numbers, worked out by hand."""
import os
import subprocess
import sys
import tempfile
import unittest
from pathlib import Path

PYTHON = Path(__file__).resolve().parents[2]
# A snapshot at s sees the commit at s. 1 committed as 4, and 2 as 5 from the snapshot 3: an overlap. 3 read from the snapshot 5 what 1 wrote: stale.
# 4 is rolled back, and a was resolved. Line 6 has the commit 4 again, line 7 is no JSON, line 8 resolves nobody.
LOG = """{"do":"txn","id":1,"start":2,"status":"committed","commit":9,"ops":[["w","x",1]]}
{"do":"txn","id":2,"start":8,"status":"indoubt","ops":[["w","x",2]]}
{"do":"resolve","id":2,"status":"committed","commit":11}
{"do":"txn","id":3,"start":12,"status":"committed","commit":12,"ops":[["r","x",1],["r","y",5]]}
{"do":"txn","id":4,"start":0,"status":"aborted","ops":[["w","y",5]]}
{"do":"txn","id":5,"start":10,"status":"committed","commit":9,"ops":[]}
{
{"do":"resolve","id":8,"status":"committed","commit":13}
{"do":"txn","id":6,"start":6,"status":"committed","commit":9,"ops":[["w","z",1]]}
"""
ANSWER = """refused source=0 line=6 code=15 reason=stamp-order
refused source=0 line=7 code=2 reason=not-json
refused source=0 line=8 code=13 reason=no-such
refused source=0 line=9 code=16 reason=stamp-taken stamp=9 holder=1
stale key="x" txn=3 op=0 read=1 missed=2
overlap key="x" first=1 second=2
aborted key="y" txn=3 op=1 read=5 writer=4
transactions=4 findings=3 refused=4 verdict=violation
"""
AFTER = """refused log:6 code=15 reason=stamp-order
  5: snapshot 4, commit 4 (this line)
refused log:7 code=2 reason=not-json
refused log:8 code=13 reason=no-such
  8: commit 6 (this line)
refused log:9 code=16 reason=stamp-taken stamp=9 holder=1
  6: snapshot 2, commit 4 (this line)
  the stamp 9 is commit 4
  1: snapshot 0, commit 4 (log:1)
stale key="x" txn=3 op=0 read=1 missed=2
  3: snapshot 5 (log:4)
  2: snapshot 3, commit 5 (log:2)
overlap key="x" first=1 second=2
  1: snapshot 0, commit 4 (log:1)
  2: snapshot 3, commit 5 (log:2)
aborted key="y" txn=3 op=1 read=5 writer=4
  3: snapshot 5 (log:4)
  4: no snapshot, rolled back (log:5)
transactions=4 findings=3 refused=4 verdict=violation
"""


class Explain(unittest.TestCase):
    def run_it(self, *words, given=b""):
        with tempfile.TemporaryDirectory() as folder:
            Path(folder, "log").write_text(LOG, encoding="utf-8")
            Path(folder, "answer").write_text(ANSWER, encoding="utf-8")
            done = subprocess.run([sys.executable, "-m", "sicheck", "explain", *words], cwd=folder, input=given, capture_output=True, check=False,
                                  env={**os.environ, "PYTHONPATH": str(PYTHON)})
        return done.returncode, done.stdout.decode(), done.stderr.decode()

    def test_after(self):
        self.assertEqual(self.run_it("answer", "--log", "log"), (0, AFTER, ""))
        self.assertEqual(self.run_it("-", "--log", "log", "--stamps", "after", given=ANSWER.encode()), (0, AFTER, ""))

    def test_at(self):
        """Where a snapshot at s doesn't see the commit at s, a start is 2s."""
        _, text, _ = self.run_it("answer", "--log", "log", "--stamps", "at")
        self.assertIn('stale key="x" txn=3 op=0 read=1 missed=2\n  3: snapshot 6 (log:4)\n  2: snapshot 4, commit 5 (log:2)\n', text)
        self.assertIn("  4: snapshot 0, rolled back (log:5)\n", text)

    def test_what_it_cannot_read(self):
        self.assertEqual(self.run_it("answer", "--log", "none")[::2], (2, "sicheck explain: cannot read none: No such file or directory\n"))
        self.assertEqual(self.run_it("log", "--log", "log")[0], 2)


if __name__ == "__main__":
    unittest.main()
