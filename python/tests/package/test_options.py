"""Runs with `--expect` and `--new`: what the program says of them, worked out by hand, and that reports of what is new add up."""
import json
import os
import subprocess
import sys
import tempfile
import unittest
from pathlib import Path

import sicheck
from sicheck import Chance, CheckFailed, Few, Short, Undecided, Violation
from sicheck.reports import reports_in
from small_database import Database, logs_in, run_clients

TOP = Path(__file__).resolve().parents[3]
sys.path.insert(0, str(TOP / "tests"))
import contention  # noqa: E402 (it stands beside the other tests)


def txn(number, start, status, *ops, commit=None):
    stamps = {"start": start, "status": status, **({} if commit is None else {"commit": commit})}
    return {"do": "txn", "id": number, **stamps, "ops": list(map(list, ops))}


class Expected(unittest.TestCase):
    def check(self, lines, expect, status, short):
        report = sicheck.check(lines=lines, expect=expect)
        self.assertEqual((report.status, report.short), (status, short))
        return report

    def test_met(self):
        lines = [txn(1, 2, "committed", ["w", "x", 1], commit=3), txn(2, 4, "committed", ["r", "x", 1], commit=4)]
        for expect in (0, 1, 2):
            self.check(lines, expect, 0, None).assert_passed()

    def test_too_few(self):
        """The rolled back one doesn't count."""
        lines = [txn(1, 2, "committed", ["w", "x", 1], commit=3), txn(2, 4, "aborted", ["w", "x", 2])]
        report = self.check(lines, 2, 10, Short(1, 2, 0, ()))
        with self.assertRaisesRegex(Undecided, "1 committed, 2 expected, in doubt 0"):
            report.assert_passed()

    def test_empty(self):
        self.check([], 0, 0, None)
        self.check([], 1, 10, Short(0, 1, 0, ()))

    def test_by_default(self):
        """A committed transaction, and none in doubt; only where nothing is asked for pass an empty log and one that is all in doubt."""
        good, doubt = txn(1, 2, "committed", ["w", "x", 1], commit=3), txn(2, 2, "indoubt", ["w", "y", 2])
        for lines, short in (([], Short(0, 1, 0, ())), ([doubt], Short(0, 1, 1, (2,))), ([good, doubt], Short(1, 1, 1, (2,))),
                             ([txn(3, 2, "aborted")], Short(0, 1, 0, ())), ([good], None)):
            *_, last = sicheck.watch(lines=lines, every=1)
            for report in (sicheck.check(lines=lines), last):
                self.assertEqual((report.status, report.short), (10 if short else 0, short))
                if short:
                    with self.assertRaisesRegex(Undecided, f"{short.committed} committed, 1 expected, in doubt {short.indoubt}"):
                        report.assert_passed()
            *_, last = sicheck.watch(lines=lines, expect=None)
            for report in (sicheck.check(lines=lines, expect=None), last):
                self.assertEqual((report.assert_passed().status, report.short), (0, None))

    def test_doubt(self):
        """Doubt alone is clean where nothing is expected. Of 22 in doubt the least 20 are told; resolved or withdrawn they are in doubt no more."""
        lines = [txn(number, 2, "indoubt", ["w", "x", number]) for number in range(22, 0, -1)]
        self.assertEqual(sicheck.check(lines=lines, expect=None).status, 0)
        report = self.check(lines, 0, 10, Short(0, 0, 22, tuple(range(1, 21))))
        with self.assertRaisesRegex(Undecided, "in doubt 22: 1, 2, 3"):
            report.assert_passed()
        ends = [{"do": "withdraw", "id": number} for number in range(2, 23)]
        self.check([*lines, *ends, {"do": "resolve", "id": 1, "status": "committed", "commit": 3}], 1, 0, None)

    def test_violation_stays_one(self):
        lines = (TOP / "samples" / "lost_update.jsonl").read_text().splitlines()
        report = self.check(lines, 3, 20, Short(2, 3, 0, ()))
        with self.assertRaises(Violation):
            report.assert_passed()

    def test_out_of_range(self):
        for expect in (-1, 16_777_217):
            with self.assertRaisesRegex(CheckFailed, "--expect"):
                sicheck.check(lines=[], expect=expect)


class Chances(unittest.TestCase):
    """Client 1 writes x twice beside the reader 2; 3 reads it, and then what it wrote itself; the writer 4 is rolled back."""
    LINES = [txn(1, 2, "committed", ["w", "x", 1], ["w", "x", 2], commit=5), txn(2, 4, "committed", ["r", "x", None], commit=9),
             txn(3, 6, "committed", ["r", "x", 2], ["w", "x", 3], ["r", "x", 3], ["r", "x", 3], commit=10), txn(4, 7, "aborted", ["w", "x", 4])]

    def test_told(self):
        for shards in (1, 3):
            report = sicheck.check(lines=self.LINES, chances=True, shards=shards).assert_passed()
            one = Chance(1, 1)
            self.assertEqual(report.chances, sicheck.Chances(Chance(2, 1), one, one, one, one, one))
        *_, first, last = sicheck.watch(lines=self.LINES, chances=True, every=1)
        self.assertEqual((first.chances, last.chances), (None, report.chances))
        self.assertIsNone(sicheck.check(lines=self.LINES).chances)

    def test_expected(self):
        report = sicheck.check(lines=self.LINES, expect_own=2, expect_aborted=1, expect_intermediate=1, expect_future=1, expect_stale=1,
                               expect_overlap=1)
        self.assertEqual((report.assert_passed().few, report.chances), ((), None))
        report = sicheck.check(lines=self.LINES, expect=9, expect_future=2, expect_own=0)
        self.assertEqual((report.status, report.few, report.short), (10, (Few("future", 1, 2),), Short(3, 9, 0, ())))
        with self.assertRaisesRegex(Undecided, "at 1 places future could have been found, 2 expected"):
            report.assert_passed()
        *_, last = sicheck.watch(lines=self.LINES, expect_stale=2, expect_overlap=3)
        self.assertEqual(last.few, (Few("stale", 1, 2), Few("overlap", 1, 3)))

    def test_out_of_range(self):
        with self.assertRaisesRegex(CheckFailed, "--expect-stale"):
            sicheck.check(lines=[], expect_stale=16_777_217)

    def test_commands(self):
        answer = "".join(f"chances kind={word} places=4 keys=2\n" for word in sicheck.Chances._fields)
        answer += "short kind=stale places=4 expected=7\ntransactions=0 findings=0 refused=0 verdict=clean\n"

        def told(*words):
            return subprocess.run([sys.executable, "-B", "-m", "sicheck", *words], input=answer, env={**os.environ, "PYTHONPATH": str(TOP / "python")},
                                  stdout=subprocess.PIPE, text=True, check=True).stdout.splitlines()
        *chances, short, summary = map(json.loads, told("json"))
        self.assertEqual([it["kind"] for it in chances], list(sicheck.Chances._fields))
        self.assertEqual(chances[3], {"is": "chances", "report": 1, "kind": "future", "places": 4, "keys": 2})
        self.assertEqual(short, {"is": "short", "report": 1, "kind": "stale", "places": 4, "expected": 7})
        self.assertEqual(summary["status"], 10)
        self.assertEqual(told("count")[0], "4 places of the kind stale, of 7 expected")

    def test_only_at_the_end(self):
        """Nothing but a summary stands behind what only the last report has, and no report behind that."""
        told, summary = "short kind=stale places=4 expected=7", "transactions=0 findings=0 refused=0 verdict=clean"
        refused = "refused source=0 line=1 code=2 reason=not-json"
        for lines in ([told, refused, summary.replace("refused=0", "refused=1")], [told, summary, summary], [told, summary, told, summary]):
            with self.subTest(lines), self.assertRaisesRegex(CheckFailed, "stands behind"):
                list(reports_in(f"{it}\n".encode() for it in lines))

    def test_rows_of_logging(self):
        """The rows on six clients, by the program."""
        page = (TOP / "docs" / "LOGGING.md").read_text(encoding="utf-8")
        for row in contention.rows(lambda log, *words: contention.told(sicheck.program_path(), log, *words)):
            self.assertIn("| " + " | ".join(f"{it:,}" if isinstance(it, int) else it for it in row) + " |\n", page)


class New(unittest.TestCase):
    def test_a_nearer_version(self):
        """Both findings of the first three lines come to name transaction 4. The third report is the one at the end."""
        lines = (TOP / "samples" / "nearer_version.jsonl").read_text().splitlines()
        lines.append('{"do":"txn","id":5,"start":12,"status":"aborted","ops":[]}')
        first, *_, last = reports = list(sicheck.watch(lines=lines, every=1, new=True, explain=True))
        self.assertEqual([[str(it) for it in report.new] for report in reports], [
            [], ['overlap key="x" first=1 second=2'], ['stale key="x" txn=3 op=0 read=64 missed=2'],
            ['stale key="x" txn=3 op=0 read=64 missed=4', 'overlap key="x" first=4 second=2'], [], []])
        self.assertEqual([[str(it) for it in report.gone] for report in reports], [
            [], [], [], ['stale key="x" txn=3 op=0 read=64 missed=2', 'overlap key="x" first=1 second=2'], [], []])
        self.assertEqual([len(report.findings) for report in reports], [0, 1, 2, 2, 2, 2])
        self.assertEqual([it.evidence for it in last.findings], ["G-SI(b) 3-rw->4 4-st->3", "G-SI(a) 4-ww->2"])

    def test_adds_up(self):
        """Of faulty runs by chance: after each line the violations are those that a run tells which tells everything."""
        for fault in ("lost", "newest"):
            with self.subTest(fault), tempfile.TemporaryDirectory() as folder, logs_in(folder, 3) as logs:
                run_clients(Database(fault), logs, 40, keys=2, pause=0.0005)
                # In the order of the files one after the other, so that much comes late.
                lines = [line for number in (3, 1, 2) for line in Path(folder, f"client-{number}.jsonl").read_text().splitlines()]
                whole = list(sicheck.watch(lines=lines, every=3))
                told = list(sicheck.watch(lines=lines, every=3, new=True))
                self.assertEqual(len(told), len(whole))
                self.assertEqual([it.found for it in told], [it.found for it in whole])
                self.assertEqual([it.violations for it in told], [it.violations for it in whole])
                self.assertEqual(told[-1].findings, whole[-1].findings)
                if fault == "lost":  # an overlap comes to name another first writer, once a version comes that lies between
                    self.assertTrue(any(it.gone for it in told))

    def test_with_expect(self):
        lines = [json.dumps(txn(number, 2, "indoubt", ["w", "x", number])) for number in (1, 2, 3)]
        reports = list(sicheck.watch(lines=lines, every=1, new=True, expect=2))
        self.assertEqual([it.short for it in reports], [None, None, None, Short(0, 2, 3, (1, 2, 3))])

    def test_program_wants_every(self):
        with self.assertRaisesRegex(CheckFailed, "--new"):
            list(sicheck.watch(lines=[], every=None, new=True))


class Progress(unittest.TestCase):
    """The program's lines of progress go on to standard error, each in the place of the one before, and none is left; a fault's own lines
    are the caller's."""

    def run_check(self, words):
        code = f"import sicheck\ntry:\n    print(sicheck.check({words}).verdict)\nexcept sicheck.CheckFailed as fault:\n    print(fault)\n"
        return subprocess.run([sys.executable, "-B", "-c", code], env={**os.environ, "PYTHONPATH": str(TOP / "python")},
                              stdout=subprocess.PIPE, stderr=subprocess.PIPE, check=True)

    def test_shown_and_gone(self):
        ran = self.run_check("lines=[], expect=None, progress=True")
        self.assertEqual(ran.stdout, b"clean\n")
        self.assertIn(ran.stderr, (b"", b"\r\x1b[Ksicheck: waiting for standard input\r\x1b[K"))  # it may be gone before it is read

    def test_cause_of_a_fault(self):
        ran = self.run_check("'/', progress=True")
        told = b"the program ended with the status 2: sicheck: cannot read /\nsicheck: /: Is a directory (os error 21)\n"
        self.assertEqual((ran.stdout, ran.stderr), (told, b""))

    def test_none_where_nobody_looks(self):
        ran = self.run_check("lines=[], expect=None")
        self.assertEqual((ran.stdout, ran.stderr), (b"clean\n", b""))


if __name__ == "__main__":
    unittest.main()
