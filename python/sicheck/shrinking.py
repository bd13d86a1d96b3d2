"""Makes of a log a least one that shows a violation of the same kind on the same key: no transaction and no operation of it can be left out,
by the program's own answers."""
import json
import os
import subprocess
from contextlib import ExitStack, closing
from typing import Any, Iterable, Iterator, List, NamedTuple, Optional, Sequence

from .answers import FORM, KINDS, Answer, Finding, answer_of, json_text
from .checking import NEVER_BUILD, program_path
from .faults import CheckFailed
from .log_lines import COMMITTED
from .page.histories import History, Misfit, Source, TooManyOrders, history_of

MOST_AT_ONCE = 2  # a part of the transactions is left out first, and halves of it, down to single ones


class Line(NamedTuple):
    """One line: a transaction as it is in the end, or a set-up value, which has no id."""
    id: Optional[int]
    head: str
    ops: Sequence[str]

    def text(self) -> str:
        return self.head if self.id is None else f'{self.head},"ops":[{",".join(self.ops)}]}}'


class Program:
    """Asks the program whether lines show the violation."""

    def __init__(self, kind: int, key: str) -> None:
        self.kind, self.key = kind, key
        self.begins = f"{KINDS[kind]} key={json_text(key)} ".encode()
        self.path = program_path()

    def shows(self, lines: Iterable[Line]) -> bool:
        given = "".join(line.text() + "\n" for line in lines).encode()
        return any(line.startswith(self.begins) for line in answer_to([self.path, "check"], given).split(b"\n"))


def answer_to(words: List[str], given: Optional[bytes]) -> bytes:
    """What the program answers."""
    try:
        done = subprocess.run(words, input=given, stdin=subprocess.DEVNULL if given is None else None, stdout=subprocess.PIPE, check=False,
                              env={**os.environ, NEVER_BUILD: "1"})
    except OSError as fault:
        raise CheckFailed(f"cannot run {words[0]}: {fault.strerror}") from None
    if done.returncode not in (0, 10, 20):
        raise CheckFailed(f"the program ended with the status {done.returncode}")
    return done.stdout


def chosen_of(answer: Answer, kind: Optional[str], key: Optional[str]) -> Finding:
    """The first violation of that kind and key, where they are asked for."""
    for finding in answer.findings:
        if finding.kind not in FORM[:2] and kind in (None, KINDS[finding.kind]) and key in (None, finding.key):
            return finding
    raise CheckFailed("the log shows no such violation" if kind or key is not None else "the log shows no violation")


def lines_on(history: History, key: str) -> List[Line]:
    """What is present on the key, in the order in which it came: each transaction as it is in the end, with its operations there alone."""
    lines = []
    for set_up in history.set_ups.values():
        if set_up.key == key:
            lines.append(Line(None, f'{{"do":"setup","key":{json_text(key)},"value":{set_up.value}}}', ()))
    for record in sorted(history.records.values(), key=lambda it: it.arrival.place):
        ops = [op_text(op) for op in record.ops if op.key == key]
        if ops:
            commit = f',"commit":{record.commit}' if record.status == COMMITTED else ""
            lines.append(Line(record.id, f'{{"do":"txn","id":{record.id},"start":{record.start},"status":"{record.status}"{commit}', ops))
    return lines


def op_text(op: Any) -> str:
    return json.dumps([op.letter, op.key, op.value], ensure_ascii=False, separators=(",", ":"))


def named_first(lines: List[Line], finding: Finding) -> List[Line]:
    """The lines that the finding names, and the set-up."""
    names = set(finding.names())
    return [line for line in lines if line.id is None or line.id in names]


def least(lines: List[Line], program: Program, finding: Finding) -> List[Line]:
    """The least lines that show it. Those that the finding names mostly do."""
    few = named_first(lines, finding)
    if program.shows(few):
        lines = few
    lines = without_lines(lines, program)
    while True:
        fewer = without_lines(without_ops(lines, program), program)
        if fewer == lines:
            return lines
        lines = fewer


def without_lines(lines: List[Line], program: Program) -> List[Line]:
    """The lines without those that can be left out, many at once first."""
    size = max(1, len(lines) // MOST_AT_ONCE)
    while True:
        place = 0
        while place < len(lines):
            rest = lines[:place] + lines[place + size:]
            if program.shows(rest):
                lines = rest
            else:
                place += size
        if size == 1:
            return lines
        size = max(1, size // 2)


def without_ops(lines: List[Line], program: Program) -> List[Line]:
    """The lines without operations that can be left out."""
    lines = list(lines)
    for number in range(len(lines)):
        size = max(1, len(lines[number].ops) // MOST_AT_ONCE)
        while True:
            place = 0
            while place < len(lines[number].ops):
                ops = lines[number].ops
                less = lines[number]._replace(ops=[*ops[:place], *ops[place + size:]])
                if program.shows(lines[:number] + [less] + lines[number + 1:]):
                    lines[number] = less
                else:
                    place += size
            if size == 1:
                break
            size = max(1, size // 2)
    return lines


def shrunk(log: str, kind: Optional[str], key: Optional[str]) -> Iterator[str]:
    """The lines of the least log."""
    answer = answer_of(answer_to([program_path(), "check", "--", log], None))
    finding = chosen_of(answer, kind, key)
    with ExitStack() as opened:
        try:
            history = history_of([opened.enter_context(closing(Source(log)))], answer.refusals)
        except (Misfit, TooManyOrders) as fault:
            raise CheckFailed(f"the log changed while it was read: {fault}") from None
        lines = lines_on(history, finding.key)
    program = Program(finding.kind, finding.key)
    if not program.shows(lines):
        raise CheckFailed("what is present on the key doesn't show the violation")
    for line in least(lines, program, finding):
        yield line.text()
