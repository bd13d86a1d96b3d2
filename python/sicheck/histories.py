"""Histories without stamps: Jepsen's and Elle's, in EDN, and logs of this format whose lines have no `start` and no `commit`.

What is read becomes transactions over numbers of keys. Of a list that was read only its place in the longest one of its key is kept, as a list is
mostly a beginning of that; a read of a register has its value.
"""
import json
import re
from typing import Any, Callable, Dict, Iterable, Iterator, List, NamedTuple, Optional, Tuple

from .edn import EdnFault, Symbol, Text, edn_text, forms_in
from .faults import LogError, shown
from .log_lines import ABORTED, COMMITTED, GREATEST, IN_DOUBT, LONGEST_KEY
from .numbering import client_of

READ, WRITE, APPEND = "r", "w", "append"
NEVER = -1
WITHDRAWN = "withdrawn"
MOST_LINES = 8


class Operation(NamedTuple):
    """A read of a list has as `value` where it stands in `Lists`; a read of a register a number, or None."""
    kind: str
    key: int
    value: Any


class Txn:
    """One transaction: when it was sent and answered, as places in the history, and what became of it."""
    __slots__ = ("id", "status", "client", "sent", "answered", "ops", "form")

    def __init__(self, number: int, status: str, client: Any, sent: int, answered: int, ops: List[Operation], form: int) -> None:
        self.id, self.status, self.client = number, status, client
        self.sent, self.answered, self.ops, self.form = sent, answered, ops, form


class Apart(NamedTuple):
    """Two lists of a key of which neither begins the other, each by its reader and the place of its read there."""
    key: int
    first: Tuple[int, int]
    second: Tuple[int, int]


class Lists:
    """The lists that were read of one key. Each is (line, length): so much of one of the longest lists."""

    def __init__(self) -> None:
        self.lines: List[List[Any]] = [[]]

    def place_of(self, elements: List[Any]) -> Tuple[int, int]:
        """Where the list stands: in a line that it begins or goes on, of the first and the last few, else in one of its own."""
        length, last = len(elements), len(self.lines) - 1
        for number in dict.fromkeys([*range(last, max(last - MOST_LINES, -1), -1), *range(min(last + 1, MOST_LINES))]):
            line = self.lines[number]
            if length <= len(line):
                if line[:length] == elements:
                    return number, length
            elif elements[:len(line)] == line:
                self.lines[number] = elements
                return number, length
        self.lines.append(elements)
        return len(self.lines) - 1, length


class History:
    """The transactions of a history in the order of their answers."""

    def __init__(self, name: str) -> None:
        self.name = name
        self.txns: List[Txn] = []
        self.keys: List[str] = []
        self.lists: Dict[int, Lists] = {}
        self.set_up: Dict[int, int] = {}
        self.is_of_lists = False
        self.has_times = True
        self._key_numbers: Dict[Any, int] = {}
        self._texts: Dict[str, Any] = {}
        self.writers: List[Dict[Any, int]] = []  # by key: by value or element the place of its transaction, NEVER of a set-up value
        self._ids: Dict[int, int] = {}

    def fault(self, form: int, what: str) -> LogError:
        return LogError(f"{self.name}, form {form}: {what}")

    def key_of(self, key: Any, text_of: Callable[[Any], str], form: int) -> int:
        """The number of a key, which is told by its text."""
        number = self._key_numbers.get(key)
        if number is None:
            text = text_of(key)
            if text in self._texts:
                raise self.fault(form, f"two keys have the text {shown(text)}")
            if not 1 <= len(text.encode("utf-8", "surrogatepass")) <= LONGEST_KEY:
                raise self.fault(form, f"the key {shown(text)} has no text of 1 to {LONGEST_KEY} bytes")
            self._texts[text] = key
            number = self._key_numbers[key] = len(self.keys)
            self.keys.append(text)
            self.writers.append({})
        return number

    def write(self, key: int, value: Any, form: int, verb: str) -> None:
        """The transaction that is read right now writes this. Nothing is written twice to a key."""
        self._write(key, value, form, verb, len(self.txns))

    def set_up_with(self, key: int, value: int, form: int) -> None:
        """The key holds this before all transactions, none of which writes it."""
        if key in self.set_up:
            raise self.fault(form, f"the key {self.keys[key]} is set up twice")
        self._write(key, value, form, "written", NEVER)
        self.set_up[key] = value

    def _write(self, key: int, value: Any, form: int, verb: str, writer: int) -> None:
        if value in self.writers[key]:
            raise self.fault(form, f"{shown(value)} is {verb} twice to the key {self.keys[key]}")
        self.writers[key][value] = writer

    def add(self, txn: Txn) -> None:
        if self._ids.setdefault(txn.id, txn.form) != txn.form:
            raise self.fault(txn.form, f"{txn.id} is the transaction of form {self._ids[txn.id]} too")
        self.txns.append(txn)

    def forget(self, txn: Txn) -> None:
        """The transaction was none, but keeps its place."""
        del self._ids[txn.id]
        txn.status, txn.ops = WITHDRAWN, []


# ---- Jepsen's histories

INVOKED = ":type :invoke"
PROCESS = re.compile(r":process\s+(:?[^\s,}]+)")
LOG_BEGINS = re.compile(r'\s*\{\s*"')
ANSWERS = {":ok": COMMITTED, ":fail": ABORTED, ":info": IN_DOUBT}


def is_sent(line: str) -> bool:
    """Whether the line tells that a transaction was sent, as they are mostly written: by its one type, and in no text or comment."""
    return (INVOKED in line and line.startswith("{") and line.rstrip().endswith("}") and line.count("{") == 1 == line.count(":type")
            and '"' not in line and ";" not in line)


class JepsenReader:
    """Reads answers; what was sent is read only where no answer came."""

    def __init__(self, history: History) -> None:
        self.history = history
        self.under_way: Dict[Any, Tuple[int, Any]] = {}  # by process: the form, and the line or map
        self.numbers: Dict[Any, int] = {}  # of values that are no numbers of this format

    def take(self, number: int, form: Any) -> None:
        if isinstance(form, str):
            found = PROCESS.search(form)
            process: Any = found[1] if found else None
            if found and process.isdigit():
                self.under_way[int(process)] = (number, form)
            return
        if not isinstance(form, dict):
            raise self.history.fault(number, f"{shown(edn_text(form))} is no map")
        process, kind = form.get(":process"), form.get(":type")
        if type(process) is not int:
            return  # the nemesis and its like
        if kind == ":invoke":
            self.under_way[process] = (number, form)
        elif kind in ANSWERS:
            sent, _ = self.under_way.pop(process, (NEVER, None))
            self.answer(number, form, ANSWERS[kind], process, sent)
        else:
            raise self.history.fault(number, f"the type {shown(edn_text(kind))} is none of :invoke, :ok, :fail and :info")

    def end(self, last: int) -> None:
        """What has no answer is in doubt."""
        for process, (number, form) in sorted(self.under_way.items(), key=lambda item: item[1][0]):
            if isinstance(form, str):
                form = next(iter(forms_in([form])))
            if isinstance(form.get(":value"), (tuple, list)):
                self.answer(number, form, IN_DOUBT, process, number, last + number)

    def answer(self, number: int, form: Dict[Any, Any], status: str, process: int, sent: int, answered: Optional[int] = None) -> None:
        value = form.get(":value")
        index = form.get(":index", number)
        if type(index) is not int or not 0 <= index <= GREATEST:
            raise self.history.fault(number, f"the index {shown(edn_text(index))} is no number of 64 bits")
        if value is None and status != COMMITTED:
            return
        if not isinstance(value, (tuple, list)):
            raise self.history.fault(number, f"the value {shown(edn_text(value))} is no list of operations")
        ops = [it for it in (self.operation(number, op, status) for op in value) if it is not None]
        if status == IN_DOUBT and not ops:
            return  # it only read: nobody can have seen it
        self.history.add(Txn(index, status, process, sent, number if answered is None else answered, ops, number))

    def operation(self, number: int, op: Any, status: str) -> Optional[Operation]:
        history = self.history
        if not isinstance(op, (tuple, list)) or len(op) != 3 or op[0] not in (":r", ":w", ":append"):
            raise history.fault(number, f"{shown(edn_text(op))} is no triple of :r, :w or :append, a key and a value")
        name, key, value = op
        if type(key) is not int:
            key = hashable(key)
        key = history.key_of(key, edn_text, number)
        if name == ":r":
            if status != COMMITTED:
                return None
            if isinstance(value, (tuple, list)):
                history.is_of_lists = True
                return Operation(READ, key, history.lists.setdefault(key, Lists()).place_of([hashable(it) for it in value]
                                                                                           if isinstance(value, tuple) else value))
            return Operation(READ, key, None if value is None else self.number_of(value))
        if name == ":append":
            history.is_of_lists = True
            history.write(key, hashable(value), number, "appended")
            return Operation(APPEND, key, hashable(value))
        value = self.number_of(value)
        history.write(key, value, number, "written")
        return Operation(WRITE, key, value)

    def number_of(self, value: Any) -> Any:
        """A register's value: a number of 64 bits itself, and what else there is to be numbered once all is read."""
        return value if type(value) is int and 0 <= value <= GREATEST else Unnumbered(edn_text(value))


class Unnumbered(NamedTuple):
    """A value that is no number of this format, by its text."""
    text: str


def hashable(form: Any) -> Any:
    """The form with tuples for lists."""
    return tuple(hashable(it) for it in form) if isinstance(form, (list, tuple)) and not isinstance(form, (Text, Symbol)) else form


def with_numbers(history: History) -> None:
    """Gives values that are no numbers the least numbers that stand nowhere, in the order in which they come."""
    taken = {op.value for txn in history.txns for op in txn.ops if type(op.value) is int}
    numbers: Dict[Unnumbered, int] = {}
    following = 1
    for txn in history.txns:
        for place, op in enumerate(txn.ops):
            if isinstance(op.value, Unnumbered):
                if op.value not in numbers:
                    while following in taken:
                        following += 1
                    numbers[op.value] = following
                    following += 1
                txn.ops[place] = op._replace(value=numbers[op.value])
    for writers in history.writers if numbers else ():
        for value in [it for it in writers if isinstance(it, Unnumbered)]:
            writers[numbers[value]] = writers.pop(value)


# ---- logs of this format

class LogReader:
    """Reads lines as those of a log, whose stamps aren't looked at."""

    def __init__(self, history: History) -> None:
        self.history = history
        history.has_times = False
        self.by_id: Dict[int, Txn] = {}

    def take(self, number: int, line: Dict[str, Any]) -> None:
        kind = line.get("do")
        if kind == "setup":
            key = self.key(number, line.get("key"))
            self.history.set_up_with(key, self.number(number, line.get("value"), "value"), number)
            return
        if kind not in ("txn", "resolve", "withdraw"):
            raise self.history.fault(number, "`do` is none of txn, resolve, withdraw and setup")
        id_ = self.number(number, line.get("id"), "id")
        if kind == "txn":
            status, ops = line.get("status"), line.get("ops")
            if status not in (COMMITTED, ABORTED, IN_DOUBT) or not isinstance(ops, list):
                raise self.history.fault(number, f"transaction {id_} has no `status` and `ops` as in a log")
            txn = Txn(id_, status, client_of(id_), NEVER, number, [self.operation(number, op) for op in ops], number)
            self.by_id[id_] = txn
            self.history.add(txn)
            return
        found = self.by_id.get(id_)
        if found is None or (kind == "resolve" and found.status != IN_DOUBT):
            raise self.history.fault(number, f"there is no transaction {id_} to {kind}")
        if kind == "resolve":
            if line.get("status") not in (COMMITTED, ABORTED):
                raise self.history.fault(number, f"transaction {id_} is resolved as {shown(line.get('status'))}")
            found.status = line["status"]
        else:
            self.withdraw(self.by_id.pop(id_))

    def withdraw(self, txn: Txn) -> None:
        """The transaction is none, and its id and its values are free again."""
        for op in txn.ops:
            if op.kind == WRITE:
                del self.history.writers[op.key][op.value]
        self.history.forget(txn)

    def end(self, last: int) -> None:
        """Nothing is left to be read."""

    def key(self, number: int, key: Any) -> int:
        if type(key) is not str:
            raise self.history.fault(number, f"the key {shown(key)} is no text")
        return self.history.key_of(key, str, number)

    def number(self, form: int, value: Any, name: str) -> int:
        if type(value) is not int or not 0 <= value <= GREATEST:
            raise self.history.fault(form, f"`{name}` is {shown(value)}, and no number of 64 bits")
        return value

    def operation(self, number: int, op: Any) -> Operation:
        if not isinstance(op, list) or len(op) != 3 or op[0] not in (READ, WRITE):
            raise self.history.fault(number, f"{shown(op)} is no triple of \"r\" or \"w\", a key and a value")
        key = self.key(number, op[1])
        if op[0] == READ:
            return Operation(READ, key, None if op[2] is None else self.number(number, op[2], "the value read"))
        value = self.number(number, op[2], "the value written")
        self.history.write(key, value, number, "written")
        return Operation(WRITE, key, value)


# ---- either

def objects_in(lines: Iterable[str]) -> Iterator[Tuple[int, Any]]:
    """The lines of a log with their numbers."""
    for number, line in enumerate(lines, 1):
        if line.strip():
            try:
                form = json.loads(line)
            except (ValueError, RecursionError):
                form = None
            if not isinstance(form, dict):
                raise EdnFault(f"form {number}: no JSON object")
            yield number, form


def read_history(name: str, lines: Iterable[str]) -> History:
    """The history of the lines, of that name in what is told of a fault."""
    history = History(name)
    first, rest = first_of(lines)
    is_log = LOG_BEGINS.match(first) is not None
    reader: Any = LogReader(history) if is_log else JepsenReader(history)
    number = 0
    try:
        for number, form in objects_in(rest) if is_log else enumerate(forms_in(rest, is_sent), 1):
            reader.take(number, form)
    except EdnFault as fault:
        told = str(fault)
        raise LogError(f"{name}, {told}" if told.startswith("form ") else f"{name}, form {number + 1}: {told}") from None
    reader.end(number)
    if not is_log:
        with_numbers(history)
        if history.is_of_lists:
            check_kind(history)
    return history


def first_of(lines: Iterable[str]) -> Tuple[str, Iterator[str]]:
    """The first line that isn't blank, and all lines."""
    it = iter(lines)
    passed = []
    for line in it:
        passed.append(line)
        if line.strip():
            break
    return (passed[-1] if passed else ""), chained(passed, it)


def chained(passed: List[str], rest: Iterator[str]) -> Iterator[str]:
    yield from passed
    yield from rest


def check_kind(history: History) -> None:
    """A history of lists has no registers; a key of which nothing was read has an empty list."""
    for txn in history.txns:
        for place, op in enumerate(txn.ops):
            if op.kind == WRITE or (op.kind == READ and op.value is not None and not isinstance(op.value, tuple)):
                raise history.fault(txn.form, f"the key {history.keys[op.key]} is a list in one place and a register in another")
            if op.kind == READ and op.value is None:
                history.lists.setdefault(op.key, Lists())
                txn.ops[place] = op._replace(value=(0, 0))
