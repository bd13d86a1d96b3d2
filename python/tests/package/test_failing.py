"""What a failed assertion says: of many findings the earliest, with their lines and evidence, whatever else the log holds."""
import io
import os
import subprocess
import tempfile
import time
import unittest
from pathlib import Path
from unittest import mock

import sicheck
from sicheck import CheckFailed, FilePlace, LogError, Undecided, Unproved, Violation
from sicheck.answers import AnswerFault, answer_of
from sicheck.places import Files
from sicheck.reports import reports_in

TOP = Path(__file__).resolve().parents[3]


def committed(number, start, commit, *ops):
    told = ",".join(f'["{letter}","{key}",{"null" if value is None else value}]' for letter, key, value in ops)
    return f'{{"do":"txn","id":{number},"start":{start},"status":"committed","commit":{commit},"ops":[{told}]}}\n'


class FailingTest(unittest.TestCase):
    def setUp(self):
        folder = tempfile.TemporaryDirectory()
        self.addCleanup(folder.cleanup)
        self.folder = folder.name

    def write(self, name, text):
        path = os.path.join(self.folder, name)
        Path(path).write_text(text, encoding="utf-8")
        return path

    def message(self, report, kind=Violation):
        with self.assertRaises(kind) as caught:
            report.assert_passed()
        return str(caught.exception).splitlines()


class Messages(FailingTest):
    def many(self):
        """2,000 overlaps, whose keys come in the other order than their stamps, and one stale read, by the last transaction."""
        lines = []
        for n in range(2_000):
            at, key = 10 * n, f"k{2_000 - n:04d}"
            lines += [committed(2 * n + 1, at, at + 1, ("w", key, 1)), committed(2 * n + 2, at, at + 3, ("w", key, 2))]
        return lines + [committed(9_000, 20_000, 20_000, ("r", "k0001", None))]

    def test_the_earliest_of_each_kind(self):
        log = self.write("log", "".join(self.many()))
        head, *told = self.message(sicheck.check(log, explain=True))
        self.assertEqual(head, "snapshot isolation is violated: 1 stale, 2000 overlap in 4001 transactions, 0 lines refused")
        wanted = []
        for n in range(9):
            wanted += [f'  overlap key="k{2_000 - n:04d}" first={2 * n + 1} second={2 * n + 2}   '
                       f"({2 * n + 1} at {log}:{2 * n + 1}; {2 * n + 2} at {log}:{2 * n + 2})", f"    G-SI(a) {2 * n + 1}-ww->{2 * n + 2}"]
        wanted += [f'  stale key="k0001" txn=9000 op=0 read=initial missed=3999   (9000 at {log}:4001; 3999 at {log}:3999)',
                   "    G-SI(b) 9000-rw->3999 3999-st->9000", "  and 1991 overlap more"]
        self.assertEqual(told, wanted)
        self.assertFalse(any("G-SI" in line for line in self.message(sicheck.check(log))))

    def test_lines_of_several_files(self):
        """1 is in doubt in one file and resolved there; the start of 2 counts as it was logged in the end."""
        first = self.write("one", '{"do":"txn","id":1,"start":2,"status":"indoubt","ops":[["w","x",1]]}\n'
                                  '{"do":"resolve","id":1,"status":"committed","commit":3}\n')
        second = self.write("two", committed(2, 2, 5, ("w", "x", 2)))
        self.assertEqual(self.message(sicheck.check([first, second]))[1:],
                         [f'  overlap key="x" first=1 second=2   (1 at {first}:1, {first}:2; 2 at {second}:1)'])

    def test_without_files(self):
        told = self.message(sicheck.check(lines=self.many()))
        self.assertEqual(len(told), 12)
        self.assertEqual(sum("stale" in line for line in told[1:]), 1)
        self.assertEqual(told[-1], "  and 1991 overlap more")

    def test_undecided(self):
        """Findings that aren't violations are told too, and of many refused lines the first."""
        log = self.write("log", committed(1, 2, 2, ("r", "x", 7)) + "[]\n" * 12)
        told = self.message(sicheck.check(log, expect=3), Undecided)
        self.assertEqual(told[:3], ["not everything could be judged: 1 unknown in 1 transactions, 12 lines refused",
                                    f'  unknown key="x" txn=1 op=0 read=7   (1 at {log}:1)', f"  {log}:2: refused, not-object"])
        self.assertEqual(told[-2:], ["  and 2 refused lines more", "  1 committed, 3 expected, in doubt 0"])

    def test_what_passes_reads_no_log(self):
        log = self.write("log", committed(1, 2, 3, ("w", "x", 7)))
        with mock.patch.object(Files, "starts_of", side_effect=AssertionError), mock.patch.object(Files, "_read_on", side_effect=AssertionError):
            sicheck.check(log).assert_passed()

    def test_time_is_linear(self):
        """Four times the log and its findings take at most ten times as long, also where each finding is asked for its lines."""
        took = []
        for count in (2_000, 8_000):
            lines = [committed(n, 0, 2 * n + 1, ("w", f"k{n // 2}", n)) for n in range(count)]
            report = sicheck.check(self.write("log", "".join(lines)))
            begin = time.process_time()
            self.message(report)
            self.assertTrue(all(len(finding.places) == 2 for finding in report.findings))
            took.append(time.process_time() - begin)
        self.assertLess(took[1], 10 * took[0] + 0.2)


class Digits(FailingTest):
    """Numbers of 5,000 digits, which Python doesn't read: in no line and no answer do they raise anything else than what is promised."""
    MANY = "9" * 5_000

    def test_lines_of_a_log(self):
        bad = [f'{{"do":"txn","id":{self.MANY},"start":2,"status":"aborted","ops":[]}}\n', f'{{"do":"withdraw","id":1,"note":{self.MANY}}}\n',
               f'{{"note":{self.MANY},"do":"resolve","id":2,"status":"aborted"}}\n', f'{{"do":"txn","id":1,"start":{self.MANY}}}\n']
        log = self.write("log", "".join(bad) + committed(1, 2, 3, ("w", "x", 1)) + "".join(bad) + committed(2, 2, 5, ("w", "x", 2)))
        report = sicheck.check(log)
        self.assertEqual(report.refused, 8)
        told = self.message(report)
        self.assertEqual(told[1], f'  overlap key="x" first=1 second=2   (1 at {log}:5; 2 at {log}:10)')
        self.assertEqual(report.findings[0].places, {1: (FilePlace(log, 5),), 2: (FilePlace(log, 10),)})
        answer = subprocess.run([sicheck.program_path(), "check", log], capture_output=True, check=False).stdout
        environment = {**os.environ, "PYTHONPATH": str(TOP / "python")}
        for words, status in ((["json", log], 0), (["count"], 0), (["page", log, "--answer", self.write("answer", answer.decode())], 0),
                              (["in-commit-order", log], 0)):
            done = subprocess.run(["python3", "-m", "sicheck", *words], input=answer, capture_output=True, check=False, env=environment)
            self.assertEqual((done.returncode, done.stderr), (status, b""), words)

    def test_a_log_that_goes_on(self):
        path = os.path.join(self.folder, "log")
        sicheck.Log(path, client=1).close()
        self.write("log", f'{{"do":"txn","id":1000001,"start":{self.MANY},"status":"indoubt","ops":[]}}\n')
        with sicheck.Log(path, client=1, resume=True) as log:
            self.assertEqual(log.doubts, ())
            with self.assertRaises(LogError):
                log.transaction(int("9" * 4_000))

    def test_answers(self):
        many, whole = self.MANY, "transactions=0 findings=0 refused=0 verdict=clean\n"
        for line in (f"transactions={many} findings=0 refused=0 verdict=clean", f"refused source={many} line=1 code=2 reason=not-json",
                     f"refused source=0 line=1 code={many} reason=not-json", f'overlap key="x" first={many} second=2',
                     f"short committed={many} expected=1 indoubt=0", f"short committed=0 expected=1 indoubt=1 ids={many}",
                     f'stale key="x" txn=1 op=0 read={many} missed=2', f'gone overlap key="x" first={many} second=2'):
            for text in (line + "\n", line + "\n" + whole):
                with self.subTest(line[:30]), self.assertRaises(CheckFailed):
                    list(reports_in(io.BytesIO(text.encode())))
                with self.subTest(line[:30], of="the page"), self.assertRaises(AnswerFault):
                    answer_of(text.encode())
        # A detail that is no number of the format stays a text.
        text = f"refused source=0 line=1 code=16 reason=stamp-taken stamp={many} holder=²\n" + whole.replace("refused=0", "refused=1")
        report, = reports_in(io.BytesIO(text.encode()))
        self.assertEqual(report.refusals[0].details, {"stamp": many, "holder": "²"})


class Checkout(FailingTest):
    """A checkout with builds that take no time, over programs that find nothing."""
    EMPTY = "#!/bin/sh\necho transactions=0 findings=0 refused=0 verdict=clean\n"
    OVERLAP = '#!/bin/sh\necho \'overlap key="x" first=1 second=2\'\necho transactions=2 findings=1 refused=0 verdict=violation\nexit 20\n'

    def setUp(self):
        super().setUp()
        self.launcher, self.built = os.path.join(self.folder, "sicheck"), os.path.join(self.folder, "built")
        Path(self.launcher).write_bytes((TOP / "sicheck").read_bytes())
        os.chmod(self.launcher, 0o755)
        os.makedirs(f"{self.folder}/crates/sicheck/out")
        os.makedirs(f"{self.folder}/tools")
        self.write("crates.txt", "")
        self.write_program("rt", "#!/bin/sh\n")
        self.build_of(self.EMPTY)
        known = {name: it for name, it in os.environ.items() if not name.startswith("SICHECK")}
        environment = mock.patch.dict(os.environ, {**known, "PATH": f"{self.folder}:{os.environ['PATH']}"}, clear=True)
        environment.start()
        self.addCleanup(environment.stop)

    def write_program(self, name, text):
        path = self.write(name, text)
        os.chmod(path, 0o755)
        return path

    def build_of(self, program):
        """The two builds give this program from now on."""
        made = self.write_program("program", program)
        self.write_program("tools/build", f"#!/bin/sh\n: > {self.built}\ncp {made} {self.folder}/crates/sicheck/out/sicheck\n")
        self.write_program("tools/build_unproved", f'#!/bin/sh\n: > {self.built}\ncp {made} "$1" && chmod +x "$1"\n')

    def launch(self, *words, **variables):
        return subprocess.run([self.launcher, *words], env={**os.environ, **variables}, capture_output=True, check=False)

    def check(self, **options):
        return sicheck.check(lines=[], expect=None, program=self.launcher, **options)


class NotBuilt(Checkout):
    """A checkout whose program isn't built, or not for its sources as they are."""

    def check_refused(self, words):
        for call in (self.check, lambda: list(sicheck.watch(lines=[], program=self.launcher))):
            with self.assertRaisesRegex(CheckFailed, f"status 2: sicheck: the {words}: {self.launcher} "):
                call()
        self.assertFalse(os.path.exists(self.built))

    def change(self):
        self.write("crates/changed.rt", "")
        os.utime(f"{self.folder}/crates/changed.rt", (2_000_000_000, 2_000_000_000))

    def test_no_build_is_begun(self):
        self.check_refused("program isn't built")
        self.write_program("crates/sicheck/out/sicheck", self.EMPTY)
        self.assertEqual(self.check().transactions, 0)
        self.change()
        self.check_refused("program isn't built for its sources as they are now")

    def test_no_proof_is_begun(self):
        with mock.patch.dict(os.environ, SICHECK_PROVED="1"):
            self.check_refused("proved program isn't built")
            self.write_program("crates/sicheck/out/sicheck", self.EMPTY)
            self.assertTrue(self.check().proved)
            self.change()
            self.check_refused("proved program isn't built for its sources as they are now")

    def test_by_itself_it_builds(self):
        self.launch()
        self.assertTrue(os.path.exists(self.built))


class NotProved(Checkout):
    """A checkout whose program is built without its proof."""

    def check_unproved(self, **options):
        """The report says it, and passes only where it is taken at its word."""
        report = self.check(**options)
        self.assertEqual((report.proved, report.status, report.passed, bool(report)), (False, 0, True, False))
        with self.assertRaisesRegex(Unproved, "isn't proved: `./sicheck prove` .*unproved=True"):
            report.assert_passed()
        self.assertIs(report.assert_passed(unproved=True), report)

    def test_reports(self):
        self.launch("--version")
        self.check_unproved()
        for report in sicheck.watch(lines=[], expect=None, program=self.launcher):
            self.assertFalse(report.proved)
        self.launch("prove")
        report = self.check()
        self.assertTrue(report.proved and report)
        self.assertIs(report.assert_passed(), report)

    def test_by_another_name(self):
        """A link to the launcher, a script that calls it, and the program itself."""
        self.launch("--version")
        link = os.path.join(self.folder, "link")
        os.symlink(self.launcher, link)
        for name in (link, self.write_program("script", f'#!/bin/sh\nexec {self.launcher} "$@"\n'), f"{self.folder}/out/unproved/sicheck"):
            with self.subTest(name), mock.patch.dict(os.environ, SICHECK=name):
                report = sicheck.check(lines=[], expect=None)
                self.assertFalse(report.proved)
                with mock.patch.dict(os.environ, SICHECK_PROVED="1"), self.assertRaises(CheckFailed):
                    sicheck.check(lines=[], expect=None)

    def test_findings(self):
        """A violation is one, and its message says who told it."""
        self.build_of(self.OVERLAP)
        self.launch("--version")
        for unproved in (False, True):
            with self.assertRaises(Violation) as caught:
                self.check().assert_passed(unproved=unproved)
            self.assertIn("isn't proved: `./sicheck prove`", str(caught.exception).splitlines()[-1])
        self.launch("prove")
        self.assertNotIn("prove", "".join(self.message(self.check())))

    def test_too_little(self):
        answer = b"refused source=0 line=1 code=2 reason=not-json\ntransactions=0 findings=0 refused=1 verdict=clean\n"
        report, = reports_in(io.BytesIO(answer))
        self.assertTrue(report.proved)
        self.assertIn("isn't proved", self.message(report._replace(proved=False), Undecided)[-1])


if __name__ == "__main__":
    unittest.main()
