"""A run of a client on an engine, and what the checker has to say of its log."""
import json
import re
import subprocess
import sys
import threading
import time
from collections import Counter
from pathlib import Path

sys.path.insert(0, str(Path(__file__).resolve().parents[1]))
import truth  # noqa: E402
from servers import Missed, PATIENCE, STARTED  # noqa: E402

LEAST = 20  # faults of each kind
AGAIN = 3  # times at most a run is made in which the database itself is guilty
SECONDS = 300  # at most, of a client
EACH = ("--clients", "4", "--transactions", "300")


class Run:
    """One run: the client's words, the folder for what it writes, and what it does wrong."""

    def __init__(self, engine, client, fault=None, stamps=None):
        self.engine, self.client, self.fault, self.stamps = engine, client, fault, stamps
        title, words, _ = client
        self.name = " ".join(it for it in (engine.name, title, fault or (stamps and f"stamps {stamps}") or "clean") if it)
        base = engine.room / re.sub(r"\W+", "-", self.name)
        self.log, self.notes = base.with_suffix(".jsonl"), base.with_suffix(".notes")
        self.words = [str(it) for it in (*words, *EACH, "--notes", self.notes)]
        self.words += ["--fault", fault, "--least", str(LEAST)] if fault else []
        self.words += ["--stamps", stamps] if stamps else []

    def start(self, output):
        """The client, as a process of the engine's user in the tree's folder of examples."""
        return STARTED.start(["timeout", "-k", "5", SECONDS, *self.words], cwd=self.engine.tree / "examples", env=self.engine.variables,
                             stdout=output, stderr=subprocess.PIPE, text=True, **self.engine.as_user())

    def ended(self, client):
        """Waits for the client, which has to end well, and lets nothing of it live on."""
        try:
            said = client.communicate(timeout=SECONDS + 20)[1]
        finally:
            STARTED.kill(client)
        if client.returncode != 0:
            raise Missed(f"the client ended with {client.returncode}: {said[-600:]}")

    def make(self):
        """Runs the client into a file."""
        with open(self.log, "wb") as output:
            self.ended(self.start(output))

    def read_notes(self):
        with open(self.notes, encoding="utf-8") as file:
            return truth.Notes(file)


def committed_in(log):
    """How many transactions of the log are committed in the end, counted without the checker."""
    states = {}
    with open(log, "rb") as file:
        for line in map(json.loads, file):
            if line["do"] in ("txn", "resolve"):
                states[line["id"]] = line["status"]
            elif line["do"] == "withdraw":
                states.pop(line["id"], None)
    return sum(state == "committed" for state in states.values())


def check(program, log, *words):
    """The status and the answer of the checker."""
    done = subprocess.run([program, "check", *words, str(log)], capture_output=True, text=True, timeout=PATIENCE, check=False)
    if done.stderr:
        raise Missed(f"the checker said {done.stderr.strip()}")
    return done.returncode, done.stdout


def hold(status, answer, expected, committed):
    """Holds a status and an answer to what the notes ask for."""
    differs = truth.difference(expected, answer)
    if differs:
        raise Missed(f"{len(differs)} lines differ: " + "; ".join(differs[:5]))
    summary = answer.splitlines()[-1]
    wanted = 20 if expected else 0
    if status != wanted or " refused=0 " not in summary:
        raise Missed(f"status {status} in place of {wanted}: {summary}")
    if committed < 500:
        raise Missed(f"only {committed} transactions committed")


class LostUpdate(Exception):
    """The database itself lost an update: its clients say so by what they replaced, and the checker by its findings."""


def judge(program, run):
    """Runs the client and holds the answer to its notes. What is told of it. A run in which the database itself was guilty, and was found to be,
    says nothing of the rest, and is made again."""
    guilty = []
    for _ in range(AGAIN):
        try:
            return judge_once(program, run) + "".join(f"; before it {it}" for it in guilty)
        except LostUpdate as fault:
            guilty.append(fault)
    raise Missed("; ".join(map(str, guilty)))


def judge_once(program, run):
    run.make()
    committed = committed_in(run.log)
    status, answer = check(program, run.log, "--expect", str(committed))
    notes = run.read_notes()
    for (name, value), ids in notes.forks().items():
        told = [line for line in answer.splitlines() if line.startswith(f"overlap key={truth.key_text(name)} first=")
                and {int(it) for it in re.findall(r"=(\d+)", line)[-2:]} <= set(ids)]
        if not told:
            raise Missed(f"{ids} replaced the value {value} of {name}, and no overlap is found there")
        raise LostUpdate(f"the database lost an update: {told[0]}")
    expected = notes.findings()
    hold(status, answer, expected, committed)
    if (len(expected) < LEAST) if run.fault else expected:
        raise Missed(f"{len(expected)} faults")
    return f"{committed} committed, " + counted(answer)


def counted(answer):
    counts = Counter(line.split(" ", 1)[0] for line in answer.splitlines() if not line.startswith(("transactions=", "short ", "refused ")))
    refused = Counter(re.findall(r"^refused .* reason=(\S+)", answer, re.M))
    told = [f"{count} {kind}" for kind, count in sorted(counts.items())] + [f"{count} refused as {word}" for word, count in sorted(refused.items())]
    return ", ".join(told) or "nothing found"


def judge_late(program, run):
    """Starts that were asked for too late make a healthy database's reads look old, and nothing else."""
    run.make()
    status, answer = check(program, run.log)
    kinds = {line.split(" ", 1)[0] for line in answer.splitlines()[:-1]}
    if status != 20 or not kinds <= run.engine.late:
        raise Missed(f"status {status} and {counted(answer)}, in place of {' and '.join(sorted(run.engine.late))} alone")
    if "future" in run.engine.late:
        return counted(answer)
    found = {line[:line.index("missed=")] for line in answer.splitlines()[:-1]}
    old = run.read_notes().old_reads()
    lost = [it for it in old if it not in found]
    if len(old) < LEAST or lost:
        raise Missed(f"{len(old)} reads were old, and {len(lost)} of these weren't found: {lost[:3]}")
    return f"{counted(answer)}, {len(old)} of them foreseen"


def judge_unscaled(program, run):
    """The same log with the database's numbers as they are: they collide."""
    bare = run.log.with_suffix(".bare")
    with open(run.log, "rb") as source, open(bare, "w", encoding="utf-8") as target:
        for line in map(json.loads, source):
            for name in ("start", "commit"):
                if name in line:
                    line[name] = (line[name] - 1) // 2 if line[name] else 0
            target.write(json.dumps(line) + "\n")
    status, answer = check(program, bare)
    if status not in (10, 20) or answer.count("reason=stamp-taken ") < LEAST:
        raise Missed(f"status {status} and {counted(answer)}, in place of stamps that are taken")
    return counted(answer)


class PipeEnd:
    """The end of a pipe that is written to, which is open until somebody closes it, or for long enough."""

    def __init__(self, file):
        self.file, self.is_late, self.guard = file, False, threading.Lock()
        self.timer = threading.Timer(SECONDS, self.give_up)
        self.timer.daemon = True
        self.timer.start()

    def close(self):
        self.timer.cancel()
        with self.guard:
            self.file.close()

    def give_up(self):
        with self.guard:
            if not self.file.closed:
                self.is_late = True
                self.file.close()


def judge_pipe(program, run):
    """The client writes to a pipe, and the checker reports while that is open: here, until the first report has come."""
    checker = subprocess.Popen([program, "check", "--every", "100", "--new"], stdin=subprocess.PIPE, stdout=subprocess.PIPE, stderr=subprocess.PIPE,
                               text=True)
    client = run.start(checker.stdin)
    end, begun, lines = PipeEnd(checker.stdin), time.monotonic(), []
    checker.stdin = None
    for line in checker.stdout:
        lines.append(line)
        if line.startswith("transactions="):
            end.close()
    run.ended(client)
    if checker.wait(PATIENCE) != 20 or checker.stderr.read():
        raise Missed(f"the checker behind the pipe ended with {checker.returncode}")
    checker.stdout.close()
    checker.stderr.close()
    if end.is_late:
        raise Missed("no report came while the pipe was open")
    ends = [place for place, line in enumerate(lines) if line.startswith("transactions=")]
    hold(checker.returncode, "".join(lines[ends[-2] + 1:]), run.read_notes().findings(), 500)
    return f"{len(ends)} reports in {time.monotonic() - begun:.0f} s, {counted(''.join(lines[ends[-2] + 1:]))}"
