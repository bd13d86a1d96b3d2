"""The least log of a violation: it shows the same kind on the same key, and nothing of it can be left out."""
import json
import os
import subprocess
import sys
import tempfile
import unittest
from pathlib import Path

PYTHON = Path(__file__).resolve().parents[2]
TOP = PYTHON.parent


def run(*words, given=None):
    done = subprocess.run([sys.executable, "-m", "sicheck", *words], input=given, capture_output=True, text=True, cwd=TOP, check=False,
                          env={**os.environ, "PYTHONPATH": str(PYTHON)})
    return done.returncode, done.stdout.splitlines(), done.stderr


def answer(lines):
    """The program's answer on these lines."""
    from sicheck.checking import program_path
    return subprocess.run([program_path(), "check"], input="".join(line + "\n" for line in lines), capture_output=True, text=True, check=False,
                          env={**os.environ, "SICHECK_NEVER_BUILD": "1"}).stdout


def txn(number, start, commit, *ops, status="committed"):
    return json.dumps({"do": "txn", "id": number, "start": start, "status": status, **({"commit": commit} if commit else {}), "ops": ops})


class Shrink(unittest.TestCase):
    def shrink(self, lines, *words):
        with tempfile.NamedTemporaryFile("w", suffix=".jsonl") as log:
            log.write("".join(line + "\n" for line in lines))
            log.flush()
            return run("shrink", log.name, *words)

    def hold(self, shown, lines):
        """Nothing can be left out."""
        self.assertIn(shown, answer(lines))
        for place, line in enumerate(lines):
            self.assertNotIn(shown, answer(lines[:place] + lines[place + 1:]))
            edit = json.loads(line)
            for at in range(len(edit.get("ops", ()))):
                less = json.dumps({**edit, "ops": edit["ops"][:at] + edit["ops"][at + 1:]})
                self.assertNotIn(shown, answer(lines[:place] + [less] + lines[place + 1:]))

    def test_by_hand(self):
        """The reader missed 2, whose version follows the set-up value; 1 was withdrawn, 5 is on another key, and 3 was resolved."""
        lines = ['{"do":"setup","key":"x","value":9}', txn(1, 1, 2, ["w", "x", 1]), '{"do":"withdraw","id":1}', txn(5, 3, 4, ["w", "y", 1]),
                 txn(2, 5, 0, ["r", "x", 9], ["w", "x", 2], ["w", "x", 3], status="indoubt"), txn(3, 8, 10, ["r", "y", 1], ["r", "x", 9], ["r", "x", 9]),
                 '{"do":"resolve","id":2,"status":"committed","commit":6}', "{"]
        self.assertEqual(self.shrink(lines), (0, [
            '{"do":"setup","key":"x","value":9}', '{"do":"txn","id":2,"start":5,"status":"committed","commit":6,"ops":[["w","x",3]]}',
            '{"do":"txn","id":3,"start":8,"status":"committed","commit":10,"ops":[["r","x",9]]}'], ""))

    def test_kind_and_key(self):
        lines = [txn(1, 1, 5, ["w", "x", 1]), txn(2, 2, 6, ["w", "x", 2], ["w", "y", 1]), txn(3, 3, 4, ["r", "y", 1])]
        self.assertEqual([json.loads(it)["id"] for it in self.shrink(lines)[1]], [1, 2])
        self.assertEqual([json.loads(it)["id"] for it in self.shrink(lines, "--kind", "future")[1]], [2, 3])
        self.assertEqual([json.loads(it)["id"] for it in self.shrink(lines, "--key", "y")[1]], [2, 3])
        self.assertEqual(self.shrink(lines, "--kind", "own")[0::2], (2, "sicheck shrink: the log shows no such violation\n"))

    def test_captured_logs(self):
        for log in sorted(TOP.glob("examples/*/*faulty.jsonl")):
            with self.subTest(log=log):
                status, lines, _ = run("shrink", str(log))
                self.assertEqual(status, 0)
                shown = answer(lines).split(" ")
                self.hold(" ".join(shown[:2]) + " ", lines)

    def test_faults(self):
        self.assertEqual(self.shrink([txn(1, 1, 5, ["w", "x", 1])]), (2, [], "sicheck shrink: the log shows no violation\n"))
        self.assertEqual(run("shrink", "/nowhere/it")[0], 2)


if __name__ == "__main__":
    unittest.main()
