"""A client of the package under each recipe, and the example client that needs no server, as they stand."""
import os
import subprocess
import sys
import tempfile
import unittest
from pathlib import Path

import sicheck

TOP = Path(__file__).resolve().parents[3]

# Two processes, of which each writes where a client writes that isn't told: increments of a counter of its own, and then a read of it.
TEST = """
import os, subprocess, sys
if len(sys.argv) == 1:
    clients = [subprocess.Popen([sys.executable, __file__, str(number)]) for number in (1, 2)]
    sys.exit(max(client.wait() for client in clients))
import sicheck
number = int(sys.argv[1])
with sicheck.Log(client=number) as log:
    value = None
    for count in range(50):
        with log.transaction(4 * count + number) as txn:
            txn.read(f"x{number}", None if os.environ.get("FAULT") and count == 25 else value)
            value = txn.write(f"x{number}")
            txn.commit(4 * count + number + 2)
"""


class Recipes(unittest.TestCase):
    def run_recipe(self, name, folder, **variables):
        test = os.path.join(folder, "test.py")
        Path(test).write_text(TEST, encoding="utf-8")
        words = ["timeout", "60", str(TOP / "examples" / "recipes" / name), sys.executable, test]
        os.makedirs(f"{folder}/logs", exist_ok=True)
        known = {**os.environ, "PYTHONPATH": str(TOP / "python"), "CLIENTS": "2", "LOGS": f"{folder}/logs", "ANSWER": f"{folder}/answer"}
        return subprocess.run(words, env={**known, **variables}, capture_output=True, text=True, check=False)

    def test_each_with_the_same_client(self):
        for name in ("after_the_run", "pipe_for_each_client", "one_pipe_for_all", "growing_files", "stop_at_a_violation"):
            for variables, status, verdict in (({}, 0, "clean"), ({"FAULT": "1"}, 20, "violation")):
                with self.subTest(name, status=status), tempfile.TemporaryDirectory() as folder:
                    done = self.run_recipe(name, folder, **variables)
                    self.assertEqual(done.returncode, status, done.stderr)
                    answer = Path(folder, "answer").read_text() if name == "stop_at_a_violation" else done.stdout
                    self.assertIn(f"verdict={verdict}", answer.splitlines()[-1])
                    if not status:
                        self.assertIn("transactions=100 findings=0 refused=0", answer.splitlines()[-1])


class Clients(unittest.TestCase):
    def report(self, *words):
        done = subprocess.run([sys.executable, str(TOP / "examples" / "sqlite" / "client.py"), "--transactions", "80", *words],
                              capture_output=True, check=True)
        return sicheck.check(lines=done.stdout.splitlines())

    def test_sqlite(self):
        self.assertGreaterEqual(self.report().assert_passed().transactions, 320)
        for fault, kind in (("cache", "stale"), ("unchecked", "overlap")):
            report = self.report("--fault", fault)
            self.assertEqual((report.status, report.refused), (20, 0))
            self.assertIn(kind, report.counts())


if __name__ == "__main__":
    unittest.main()
