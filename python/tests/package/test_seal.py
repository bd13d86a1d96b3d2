"""Histories without stamps: beside a search over all orders of starts and commits, with each anomaly that snapshot isolation forbids, and the forms
in which they are written."""
import io
import itertools
import json
import os
import random
import subprocess
import sys
import tempfile
import unittest
from pathlib import Path

from sicheck.checking import program_path
from sicheck.edn import EdnFault, form_at, forms_in
from sicheck.faults import LogError
from sicheck.histories import read_history
from sicheck.log_lines import Place, SetUp, edit_of
from sicheck.page.histories import History as JudgedLog
from sicheck.page.histories import Record
from sicheck.page.judgement import findings_of, key_histories
from sicheck.sealing import CERTAIN_KINDS, Sealing, check_lengths

PYTHON = Path(__file__).resolve().parents[2]


def op_text(op):
    """One operation in EDN."""
    value = op[2]
    if isinstance(value, (list, tuple)):
        value = "[" + " ".join(map(str, value)) + "]"
    return f"[:{op[0]} {op[1]} {'nil' if value is None else value}]"


def line(kind, process, ops, index):
    return f"{{:type :{kind}, :f :txn, :value [{' '.join(map(op_text, ops))}], :process {process}, :index {index}}}\n"


def sealed(lines, sessions=False, real_time=False):
    """What is said of the history, its log, and whether a violation is certain before it is judged."""
    history = read_history("history", lines)
    check_lengths(history)
    it = Sealing(history, sessions, real_time).sealed()
    return it.told, list(it.log), it.is_violated


def judged(log):
    """The findings of a log by the package's own second reading of the definitions."""
    history, keys = JudgedLog(), {}
    for number, text in enumerate(log, 1):
        edit = edit_of(text.rstrip("\n").encode(), Place(0, number), keys)
        if isinstance(edit, SetUp):
            history.set_ups[edit.key] = edit
        else:
            assert edit.id not in history.records and edit.commit != edit.start
            history.records[edit.id] = Record(edit)
    stamps = [it.commit for it in history.records.values() if it.is_committed] + [it.start for it in history.records.values() if it.is_committed]
    assert len(set(stamps)) == len(stamps)
    return [finding.text() for key in key_histories(history).values() for finding in findings_of(key)]


def status_of(lines, **asked):
    """The status, and what is said."""
    told, log, is_violated = sealed(lines, **asked)
    found = judged(log)
    if is_violated or any(text.startswith(CERTAIN_KINDS) for text in found):
        return 20, told
    statuses = [json.loads(it).get("status") for it in log]
    return (10 if found or "indoubt" in statuses or "committed" not in statuses else 0), told


class Txn:
    """A transaction of a drawn history: what it asked for, when it was sent and answered, and what it read."""

    def __init__(self, ops, process=0, sent=0, answered=0):
        self.ops, self.process, self.sent, self.answered = ops, process, sent, answered


def orders_of(txns, sessions, real_time):
    """All orders of the starts and commits, as lists of (transaction, whether it is the commit)."""
    def grown(order, started, ended):
        if len(ended) == len(txns):
            yield order
            return
        for own, txn in enumerate(txns):
            if own not in started:
                earlier = [it for it in range(len(txns)) if it != own and (
                    sessions and txns[it].process == txn.process and txns[it].answered < txn.answered
                    or real_time and txns[it].answered < txn.sent)]
                if all(it in ended for it in earlier):
                    yield from grown(order + [(own, False)], started | {own}, ended)
            elif own not in ended:
                yield from grown(order + [(own, True)], started, ended | {own})
    return grown([], frozenset(), frozenset())


def fits(txns, order):
    """Whether a store with snapshots whose first committer wins gives these reads in this order."""
    state, versions, snapshots = {}, {}, {}
    for own, is_commit in order:
        if not is_commit:
            snapshots[own] = dict(state), dict(versions)
            seen, mine = dict(state), {}
            for name, key, value in txns[own].ops:
                if name == "r" and seen.get(key) != value:
                    return False
                if name != "r":
                    seen[key] = (*(seen.get(key) or ()), value) if name == "append" else value
                    mine[key] = seen[key]
            snapshots[own] += (mine,)
        else:
            _, began, mine = snapshots[own]
            if any(versions.get(key) != began.get(key) for key in mine):
                return False
            for key, value in mine.items():
                state[key], versions[key] = value, own
    return True


def has_order(txns, sessions=False, real_time=False):
    return any(fits(txns, order) for order in orders_of(txns, sessions, real_time))


def drawn(chance, name, most):
    """Transactions that a store ran, of which some may have been given other reads: mostly few orders fit, or none."""
    keys = [1, 2][:chance.randint(1, 2)]
    count, numbers = chance.randint(2, most), itertools.count(1)
    txns = []
    for own in range(count):
        ops = [[chance.choice(["r", "r", name]), chance.choice(keys), None] for _ in range(chance.randint(1, 3))]
        txns.append(Txn([[op[0], op[1], None if op[0] == "r" else next(numbers)] for op in ops]))
    events = [own for own in range(count) for _ in range(2)]
    chance.shuffle(events)
    state, begun, place = {}, {}, 0
    for own in events:
        place += 1
        if own not in begun:
            begun[own] = place
            txns[own].sent = place
            seen = dict(state)
            for op in txns[own].ops:
                if op[0] == "r":
                    op[2] = seen.get(op[1])
                else:
                    seen[op[1]] = (*(seen.get(op[1]) or ()), op[2]) if name == "append" else op[2]
        else:
            txns[own].answered = place
            for op in txns[own].ops:
                if op[0] != "r":
                    state[op[1]] = (*(state.get(op[1]) or ()), op[2]) if name == "append" else op[2]
    for own, txn in enumerate(sorted(txns, key=lambda it: it.sent)):
        taken = {it.process for it in txns if it.sent < txn.sent < it.answered}
        txn.process = min({0, 1, 2, 3} - taken, key=lambda it: (it > 1, chance.random()))
    if chance.random() < 0.6:
        reads = [op for txn in txns for op in txn.ops if op[0] == "r"]
        if reads:
            op = chance.choice(reads)
            op[2] = chance.choice([it[2] for it in reads if it[1] == op[1]])
    return sorted(txns, key=lambda txn: txn.answered)


def lines_of(txns, name):
    """The history in EDN, with what was sent."""
    events = []
    for txn in txns:
        asked = [[op[0], op[1], None if op[0] == "r" else op[2]] for op in txn.ops]
        told = [[op[0], op[1], (op[2] or () if name == "append" else op[2]) if op[0] == "r" else op[2]] for op in txn.ops]
        events += [(txn.sent, "invoke", txn.process, asked), (txn.answered, "ok", txn.process, told)]
    return [line(kind, process, ops, place) for place, kind, process, ops in sorted(events, key=lambda it: it[0])]


class BesideAllOrders(unittest.TestCase):
    """The status is 0 exactly where some order of all starts and commits gives what was read."""

    def hold(self, name, count, most, seed, **asked):
        chance, statuses = random.Random(seed), {0: 0, 10: 0, 20: 0}
        for _ in range(count):
            txns = drawn(chance, name, most)
            lines = lines_of(txns, name)
            status, told = status_of(lines, **asked)
            statuses[status] += 1
            self.assertEqual(status == 0, has_order(txns, **asked), "".join(lines) + "\n".join(told))
        self.assertEqual(statuses[10], 0)
        self.assertGreater(min(statuses[0], statuses[20]), count // 10, statuses)

    def test_lists(self):
        self.hold("append", 700, 4, 1)

    def test_registers(self):
        self.hold("w", 400, 4, 2)

    def test_sessions(self):
        self.hold("append", 400, 4, 3, sessions=True)

    def test_real_time(self):
        self.hold("append", 300, 4, 4, sessions=True, real_time=True)

    def test_registers_in_real_time(self):
        self.hold("w", 200, 4, 5, real_time=True)


class Anomalies(unittest.TestCase):
    """What Elle's list names, each in a history by hand."""

    def status(self, *txns, **asked):
        return status_of([line("ok", own, ops, own) for own, ops in enumerate(txns)], **asked)

    def test_write_skew_is_allowed(self):
        self.assertEqual(self.status([("r", 1, []), ("append", 2, 1)], [("r", 2, []), ("append", 1, 1)], [("r", 1, [1]), ("r", 2, [1])])[0], 0)

    def test_lost_update(self):
        status, told = self.status([("r", 1, []), ("append", 1, 1)], [("r", 1, []), ("append", 1, 2)], [("r", 1, [1, 2])])
        self.assertEqual((status, told), (20, ["no-order certain=yes", '  fork key="1" 0 1']))

    def test_long_fork(self):
        status, told = self.status([("append", 1, 1)], [("append", 2, 1)], [("r", 1, [1]), ("r", 2, [])], [("r", 1, []), ("r", 2, [1])])
        self.assertEqual(status, 20)
        self.assertEqual(told[0], "no-order certain=yes")
        self.assertRegex(told[1], r"^  knot \d-(wr|rw)->\d key=.*")

    def test_read_skew(self):
        self.assertEqual(self.status([("append", 1, 1), ("append", 2, 1)], [("r", 1, [1]), ("r", 2, [])], [("r", 2, [1])])[0], 20)

    def test_circular_reads(self):
        self.assertEqual(self.status([("append", 1, 1), ("r", 2, [1])], [("append", 2, 1), ("r", 1, [1])])[0], 20)

    def test_aborted_and_intermediate_reads(self):
        lines = [line("fail", 0, [("append", 1, 1)], 0), line("ok", 1, [("r", 1, [1])], 1)]
        self.assertEqual(status_of(lines)[0], 20)
        self.assertEqual(self.status([("append", 1, 1), ("append", 1, 2)], [("r", 1, [1])], [("r", 1, [1, 2])])[0], 20)

    def test_lists_apart_and_twice(self):
        status, told = self.status([("append", 1, 1)], [("append", 1, 2)], [("r", 1, [1, 2])], [("r", 1, [2])])
        self.assertEqual((status, told[0]), (20, 'apart key="1" txn=2 op=0 txn=3 op=0'))
        status, told = self.status([("append", 1, 1)], [("r", 1, [1, 1])])
        self.assertEqual((status, told[0]), (20, 'twice key="1" txn=1 op=0 element=1'))

    def test_an_element_that_nobody_appended_is_unknown(self):
        self.assertEqual(self.status([("append", 1, 1)], [("r", 1, [1, 7])])[0], 10)

    def test_what_nobody_read(self):
        """Two lists that nobody read: either order fits the other key."""
        self.assertEqual(self.status([("append", 1, 1), ("append", 2, 1)], [("append", 1, 2), ("r", 2, [])], [("r", 2, [1])])[0], 0)


class Forms(unittest.TestCase):
    """How histories are written, and what is said of one that can't be read."""

    def test_vector_tags_and_spaces(self):
        text = """[ #jepsen.history.Op{:index 0, :type :invoke, :process 0, :f :txn, :value ([:r "x" nil])}, ; first
{:type :ok, :process 0, :f :txn, :value [[:r "x" []]], :index 1 :error {:a #{1 2}} #_ {:b 2}}
  {:type :info :process :nemesis :f :kill :value nil :index 2}
{:type :ok, :process 1, :f :txn, :value [[:append "x" 5] [:append [1 :a] 6]], :index 3, :note "} \\" ;"}]"""
        told, log, _ = sealed(io.StringIO(text))
        self.assertEqual(told, ["sealed transactions=2"])
        self.assertEqual([json.loads(it)["ops"] for it in log],
                         [[["r", '"x"', None]], [["r", '"x"', None], ["w", '"x"', 1], ["r", "[1 :a]", None], ["w", "[1 :a]", 1]]])

    def test_no_answer(self):
        """Committed where it was read, else in doubt; one that only read is left out."""
        lines = [line("invoke", 0, [("append", 1, 1), ("r", 1, None)], 0), line("info", 0, [("append", 1, 1), ("r", 1, None)], 1),
                 line("ok", 1, [("r", 1, [1])], 2), line("invoke", 2, [("append", 1, 2)], 3), line("info", 3, [("r", 1, None)], 4)]
        told, log, _ = sealed(lines)
        self.assertEqual([(json.loads(it)["id"], json.loads(it)["status"], json.loads(it)["ops"]) for it in log],
                         [(1, "committed", [["r", "1", None], ["w", "1", 1]]), (2, "committed", [["r", "1", 1]]),
                          (3, "indoubt", [["w", "1", (1 << 62) + 1]])])
        self.assertEqual(status_of(lines)[0], 10)

    def test_an_empty_list_is_nil_too(self):
        lines = [line("ok", 0, [("r", 1, None), ("append", 2, 1)], 0), line("info", 1, [("append", 1, 1)], 1), line("ok", 2, [("r", 1, []), ("r", 2, [1])], 2)]
        told, log, _ = sealed(lines)
        self.assertEqual([json.loads(it)["ops"] for it in log],
                         [[["r", "1", None], ["r", "2", None], ["w", "2", 1]], [["w", "1", (1 << 62) + 1]], [["r", "1", None], ["r", "2", 1]]])
        self.assertEqual(told, ["sealed transactions=2"])

    def test_registers_of_any_value(self):
        lines = [line("ok", 0, [("w", 1, ":a")], 0), line("ok", 1, [("r", 1, ":a"), ("w", 1, 2)], 1), line("ok", 2, [("r", 1, 2)], 2)]
        told, log, _ = sealed(lines)
        self.assertEqual([json.loads(it)["ops"] for it in log], [[["w", "1", 1]], [["r", "1", 1], ["w", "1", 2]], [["r", "1", 2]]])
        self.assertEqual(told, ["sealed transactions=3"])

    def test_own_lines(self):
        lines = ['{"do":"setup","key":"y","value":3}\n', '{"do":"txn","id":1,"status":"indoubt","ops":[["r","y",3],["w","x",1]]}\n', "\n",
                 '{"do":"txn","id":2,"start":9,"status":"committed","commit":8,"ops":[["r","x",1]]}\n',
                 '{"do":"txn","id":3,"status":"indoubt","ops":[["w","y",4]]}\n', '{"do":"resolve","id":3,"status":"aborted"}\n',
                 '{"do":"txn","id":4,"status":"committed","ops":[["w","x",7]]}\n', '{"do":"withdraw","id":4}\n',
                 '{"do":"txn","id":4,"status":"aborted","ops":[["w","x",7]]}\n']
        told, log, _ = sealed(lines)
        self.assertEqual(told, ["sealed transactions=2"])
        self.assertEqual([json.loads(it).get("status") for it in log], [None, "committed", "committed", "aborted", "aborted"])
        self.assertEqual(status_of(lines)[0], 0)

    def test_a_set_up_value_settles_no_doubt(self):
        doubtful = '{"do":"txn","id":1,"status":"indoubt","ops":[["w","x",5]]}'
        for reads, status, doubt in (0, 10, "indoubt"), (5, 0, "committed"):
            lines = ['{"do":"setup","key":"x","value":0}', doubtful,
                     '{"do":"txn","id":2,"status":"committed","ops":[["r","x",%d]]}' % reads]
            self.assertEqual([json.loads(it).get("status") for it in sealed(lines)[1]], [None, doubt, "committed"])
            self.assertEqual(status_of(lines)[0], status)

    def test_an_answer_that_says_invoke_in_a_text_is_an_answer(self):
        for lines in (['{:type :ok, :f :txn, :value [[:w 1 ":type :invoke"]], :process 0, :index 0}\n'],
                      ["{:type :ok, :f :txn, :value [[:w 1 2]], :process 0, :index 0 ; :type :invoke }\n", "}\n"]):
            self.assertEqual(sealed(lines)[0], ["sealed transactions=1"])

    def test_own_lines_with_blanks(self):
        self.assertEqual(sealed([' { "do" : "txn", "id": 1, "status": "committed", "ops": [["w", "x", 1]] }'])[0], ["sealed transactions=1"])

    def test_faults(self):
        good = line("ok", 0, [("append", 1, 1)], 0)
        for lines, what in [
                ([good, "{:type :ok"], "history, form 2: a form that doesn't end"), ([good, "}"], "history, form 2: } ends nothing"),
                ([good, "[1 2]"], "history, form 2: '1' is no map"), (["{:type :ok, :process 0, :value [[:cas 1 2]]}"],
                 "history, form 1: '[:cas 1 2]' is no triple of :r, :w or :append, a key and a value"),
                ([good, line("ok", 1, [("append", 1, 1)], 1)], "history, form 2: 1 is appended twice to the key 1"),
                ([good, line("ok", 1, [("append", 1, 2)], 0)], "history, form 2: 0 is the transaction of form 1 too"),
                ([line("ok", 1, [("append", "1.0", 2), ("append", "1.00", 2)], 0)], "history, form 1: 2 is appended twice to the key 1.0"),
                ([line("ok", 1, [("append", '"%s"' % ("a" * 127), 2)], 0)], "has no text of 1 to 128 bytes"),
                ([line("ok", 1, [("append", 1, 2), ("w", 1, 3)], 0)], "a list in one place and a register in another"),
                (["{:type :ok, :process 0, :value 5}"], "history, form 1: the value '5' is no list of operations"),
                (['{"do":"put"}'], "history, form 1: `do` is none of"), (['{"do":"withdraw","id":1}'], "there is no transaction 1 to withdraw"),
                (['{"do":"setup","key":"x","value":1}', '{"do":"setup","key":"x","value":2}'], "the key x is set up twice"),
                (['{"do":"txn","id":1,"status":"aborted","ops":[["w","x",7]]}', '{"do":"setup","key":"x","value":7}'], "7 is written twice to the key x"),
                (['{"do":"txn","id":1,"status":"committed","ops":[["r","x",1.5]]}'], "`the value read` is 1.5"), (['{"do":"txn"'], "form 1: no JSON")]:
            with self.assertRaises(LogError) as told:
                sealed(lines)
            self.assertIn(what, str(told.exception))
        with self.assertRaises(LogError):
            sealed([line("ok", 0, [("append", 1, it) for it in range(2_049)], 0)])

    def test_edn(self):
        for text, form in [("nil", None), ("[true false]", (True, False)), ("#inst \"x\"", ("x",)), ("(1 -2 +3 4N)", (1, -2, 3, 4)), ("{}", {}),
                           ("#{}", frozenset()), ("\\newline", ("\n",)), ("#_ 1 2", 2), ("[#_ #a {:b 1} 3]", (3,)), ('"\\u0041\\n"', ("A\n",))]:
            self.assertEqual(form_at(text, 0)[0], form, text)  # (a text is a tuple of one)
        for text in ("{1}", '"\\x"', "[1", ")", "#{1", '"a'):
            with self.assertRaises(EdnFault):
                list(forms_in([text]))


class Command(unittest.TestCase):
    def run_seal(self, *words, given=None):
        done = subprocess.run([sys.executable, "-m", "sicheck", "seal", *words], input=given, capture_output=True, text=True, check=False,
                              env={**os.environ, "PYTHONPATH": str(PYTHON)})
        return done.returncode, done.stdout.splitlines(), done.stderr

    def test_the_program_judges(self):
        with tempfile.TemporaryDirectory() as folder:
            history, log = f"{folder}/history.edn", f"{folder}/log.jsonl"
            Path(history).write_text(line("ok", 0, [("append", 1, 1)], 0) + line("ok", 1, [("r", 1, [1])], 1))
            self.assertEqual(self.run_seal(history, "--log", log),
                             (0, ["sealed transactions=2", "transactions=2 findings=0 refused=0 verdict=clean"], ""))
            self.assertEqual(len(Path(log).read_text().splitlines()), 2)

    def test_forks_and_knots_are_checked_by_the_log(self):
        """What is told of drawn histories and of Elle's long fork is evidence that holds of the log."""
        chance, kinds = random.Random(6), []
        histories = [lines_of(drawn(chance, name, 4), name) for name in ["append", "w"] * 300]
        histories.append([line("ok", own, ops, own) for own, ops in enumerate((
            [("append", 1, 1)], [("append", 2, 1)], [("r", 1, [1]), ("r", 2, [])], [("r", 1, []), ("r", 2, [1])]))])
        with tempfile.TemporaryDirectory() as folder:
            for lines in histories:
                told, log, _ = sealed(lines)
                evidence = [it for it in told if it.startswith("  ")]
                if evidence:
                    kinds.append(evidence[0].split()[0])
                    Path(folder, "log.jsonl").write_text("".join(log))
                    done = subprocess.run([program_path(), "evidence", f"{folder}/log.jsonl"], input="\n".join(told) + "\n",
                                          capture_output=True, text=True, check=False)
                    self.assertEqual((done.returncode, done.stdout), (0, ""), "".join(lines) + "\n".join(told))
        self.assertEqual(set(kinds), {"fork", "knot"})

    def test_standard_input(self):
        status, lines, _ = self.run_seal("-", given=line("ok", 0, [("r", 1, []), ("append", 1, 1)], 0) + line("ok", 1, [("r", 1, []), ("append", 1, 2)], 1))
        self.assertEqual((status, lines[:2]), (20, ["no-order certain=yes", '  fork key="1" 0 1']))
        self.assertEqual(self.run_seal("-", given="")[0:2], (10, ["sealed transactions=0", "short committed=0 expected=1 indoubt=0",
                                                                "transactions=0 findings=0 refused=0 verdict=clean"]))

    def test_faults(self):
        status, lines, told = self.run_seal("-", given="{:type")
        self.assertEqual((status, lines, told), (2, [], "sicheck seal: standard input, form 1: a form that doesn't end\n"))
        self.assertEqual(self.run_seal("/nowhere/it")[0], 2)
        status, _, told = self.run_seal("-", "--real-time", given='{"do":"txn","id":1,"status":"committed","ops":[]}')
        self.assertEqual((status, told), (2, "sicheck seal: standard input: a log without stamps doesn't say when its transactions were sent\n"))

    def test_captured_logs(self):
        """Their stamps thrown away they are told apart all the same."""
        for log in sorted(PYTHON.parent.glob("examples/*/*.jsonl")):
            with self.subTest(log=log):
                self.assertEqual(self.run_seal(str(log))[0], 20 if "faulty" in log.name else 0)


if __name__ == "__main__":
    unittest.main()
