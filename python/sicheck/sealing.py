"""Gives a history without stamps stamps under which it is clean, if it can, and has the program judge it.

A list becomes a number of its key: how many elements it has, if it begins the longest list that was read, and else a number that nobody writes; an
empty one is null. To append is to read the list and to write the longer one, so lists are judged whole. What the search for stamps does need not be
trusted: what the program calls clean is clean by the stamps that it was given.
"""
import json
import os
import subprocess
import sys
import tempfile
import time
from itertools import chain
from typing import Any, Callable, Dict, Iterable, Iterator, List, NamedTuple, Optional, Tuple

from .checking import NEVER_BUILD, program_path
from .edn import edn_text
from .faults import CheckFailed, LogError
from .histories import APPEND, NEVER, READ, WITHDRAWN, History, Lists, Operation, read_history
from .log_lines import COMMITTED, IN_DOUBT, MOST_OPERATIONS
from .ordering import INITIAL, OTHER, Events, Found, Keys, Why, is_by_value, search

UNREAD = 1 << 62  # numbers from here on are of lists that begin no longer one, and of elements that nobody read
CERTAIN_KINDS = ("own ", "aborted ", "intermediate ")  # findings that no stamps could mend
CLEAN, OPEN, VIOLATION = 0, 10, 20


class Sealed(NamedTuple):
    """A history with stamps: what is said before the program's answer, the log, and whether a violation is certain already."""
    told: List[str]
    log: Iterator[str]
    is_violated: bool


class Sealing:
    """What becomes of a history."""

    def __init__(self, history: History, sessions: bool, real_time: bool) -> None:
        self.history, self.sessions, self.real_time = history, sessions, real_time
        self.txns = history.txns
        self.answered_ones = [txn.status == COMMITTED for txn in self.txns]
        self.lengths: List[Dict[Any, int]] = []  # by key: how long the longest list is at each of its elements
        self.longest: List[Tuple[int, List[Any]]] = []  # by key: its line, and its elements
        self.others: Dict[Tuple[int, Tuple[Any, ...]], int] = {}
        self.asked: Dict[Tuple[int, int], int] = {}  # by key and line: of so many elements the writers are known
        self.forks: List[str] = []
        self.unread = UNREAD
        self.told: List[str] = []
        self.is_violated = False

    # ---- lists

    def lay_out(self) -> None:
        """The longest list of each key, and the lists that contradict it."""
        for number in range(len(self.history.keys)):
            lines = self.history.lists.get(number, Lists()).lines
            line = max(range(len(lines)), key=lambda it: len(lines[it]))
            lengths: Dict[Any, int] = {}
            for length, element in enumerate(lines[line], 1):
                lengths.setdefault(element, length)
            self.longest.append((line, lines[line]))
            self.lengths.append(lengths)

    def length_of(self, key: int, place: Tuple[int, int]) -> Optional[int]:
        """How much of the longest list the list is, if it begins it."""
        line, length = place
        number, elements = self.longest[key]
        if line == number or self.history.lists[key].lines[line][:length] == elements[:length]:
            return length
        return None

    def tell_lists(self) -> None:
        """The lists of which neither begins the other, one for each key, and those that have an element twice."""
        bent = {key for key, lists in self.history.lists.items()
                if len(lists.lines) > 1 or any(len(set(line)) < len(line) for line in lists.lines)}
        if not bent:
            return
        reads: Dict[int, List[Tuple[int, int, Tuple[int, int]]]] = {key: [] for key in bent}
        for own, txn in enumerate(self.txns):
            for place, op in placed(txn.ops):
                if op.kind == READ and op.key in bent and txn.status == COMMITTED:
                    reads[op.key].append((own, place, op.value))
        for key in sorted(bent, key=lambda it: self.history.keys[it].encode("utf-8")):
            self._tell_apart(key, reads[key])
            self._tell_twice(key, reads[key])

    def _tell_apart(self, key: int, reads: List[Tuple[int, int, Tuple[int, int]]]) -> None:
        line, elements = self.longest[key]
        for own, place, (other, length) in reads:
            if self.length_of(key, (other, length)) is not None:
                continue
            there = self.history.lists[key].lines[other][:length]
            same = next(at for at in range(length) if at >= len(elements) or there[at] != elements[at])
            first = next((it for it in reads if it[2][0] == line and it[2][1] > same), None)
            if first is not None:
                self.told.append(f"apart key={self.text(key)} txn={self.id(first[0])} op={first[1]} txn={self.id(own)} op={place}")
                self.is_violated = True
                return

    def _tell_twice(self, key: int, reads: List[Tuple[int, int, Tuple[int, int]]]) -> None:
        for own, place, (line, length) in reads:
            passed = set()
            for element in self.history.lists[key].lines[line][:length]:
                if element in passed:
                    self.told.append(f"twice key={self.text(key)} txn={self.id(own)} op={place} element={edn_text(element)}")
                    self.is_violated = True
                    return
                passed.add(element)

    # ---- what was seen

    def settle_doubts(self) -> None:
        """One in doubt is committed where a committed transaction read what it wrote."""
        waiting = [own for own, txn in enumerate(self.txns) if txn.status == COMMITTED]
        if all(txn.status != IN_DOUBT for txn in self.txns):
            return
        for own in waiting:
            for op in self.txns[own].ops:
                if op.kind == READ:
                    for writer in self._writers_of(op):
                        if self.txns[writer].status == IN_DOUBT:
                            self.txns[writer].status = COMMITTED
                            waiting.append(writer)

    def _writers_of(self, op: Operation) -> Iterable[int]:
        """Who wrote what the read returned: of a list its elements, each asked once for the longest list."""
        writers = self.history.writers[op.key]
        if not self.history.is_of_lists:
            found = writers.get(op.value, NEVER)
            return () if found == NEVER else (found,)
        line, length = op.value
        elements = self.history.lists[op.key].lines[line]
        begun = self.asked.setdefault((op.key, line), 0)
        if length <= begun:
            return ()
        self.asked[(op.key, line)] = length
        return [writers[it] for it in elements[begun:length] if it in writers]

    def seen_by(self, own: int, installed: List[Dict[int, int]]) -> List[Tuple[int, int]]:
        """What a committed transaction read before it wrote there: the keys, with who installed the versions."""
        seen, written = [], set()
        for op in self.txns[own].ops:
            if op.kind == READ:
                if op.key not in written:
                    seen.append((op.key, self._installer(op.key, op.value, installed)))
                continue
            if op.kind == APPEND and op.key not in written:
                length = self.lengths[op.key].get(op.value)
                if length is not None:
                    seen.append((op.key, self._installer_at(op.key, length - 1, installed)))
            written.add(op.key)
        return seen

    def _installer(self, key: int, value: Any, installed: List[Dict[int, int]]) -> int:
        if self.history.is_of_lists:
            length = self.length_of(key, value)
            return OTHER if length is None else self._installer_at(key, length, installed)
        if value is None:
            return OTHER if key in self.history.set_up else INITIAL
        if self.history.set_up.get(key) == value:
            return INITIAL
        return installed[key].get(value, OTHER)

    @staticmethod
    def _installer_at(key: int, length: int, installed: List[Dict[int, int]]) -> int:
        return installed[key].get(length, OTHER) if length else INITIAL

    def installed(self) -> Tuple[List[Dict[int, int]], List[List[int]]]:
        """By key: who installed which version, a value or a length; and who installed what nobody read."""
        versions: List[Dict[int, int]] = [{} for _ in self.history.keys]
        unread: List[List[int]] = [[] for _ in self.history.keys]
        for own, txn in enumerate(self.txns):
            if txn.status != COMMITTED:
                continue
            for key, value in {op.key: op.value for op in txn.ops if op.kind != READ}.items():
                if not self.history.is_of_lists:
                    versions[key][value] = own
                elif value in self.lengths[key]:
                    versions[key][self.lengths[key][value]] = own
                else:
                    unread[key].append(own)
        return versions, unread

    # ---- segments

    def keys_of(self, versions: List[Dict[int, int]], unread: List[List[int]], seen: List[List[Tuple[int, int]]]) -> List[Keys]:
        """What is known of the order of each key's versions."""
        followers: List[Dict[int, List[int]]] = [{} for _ in versions]
        writers = [set(it.values()) | set(others) for it, others in zip(versions, unread)]
        for own, reads in enumerate(seen):
            for key, writer in dict.fromkeys(reads):
                if own in writers[key] and writer != OTHER and writer != own:
                    followers[key].setdefault(writer, []).append(own)
        keys = []
        for key, own_versions in enumerate(versions):
            self._tell_forks(key, followers[key])
            if self.history.is_of_lists:
                certain = [own_versions[length] for length in sorted(own_versions)]
                last = certain[-1] if certain else INITIAL
                first = [it for it in followers[key].get(last, ()) if it in unread[key]][:1]
                keys.append(Keys(certain + first, [[it] for it in unread[key] if it not in first]))
            else:
                keys.append(linked(sorted(writers[key]), followers[key]))
        return keys

    def _tell_forks(self, key: int, followers: Dict[int, List[int]]) -> None:
        for readers in followers.values():
            if len(readers) > 1:
                self.forks.append(f"  fork key={self.text(key)} {self.id(readers[0])} {self.id(readers[1])}")

    # ---- all of it

    def sealed(self) -> Sealed:
        """The history with the stamps that the search found."""
        if self.history.is_of_lists:
            self.lay_out()
            self.tell_lists()
        self.settle_doubts()
        committed = [txn.status == COMMITTED for txn in self.txns]
        versions, unread = self.installed()
        seen = [self.seen_by(own, versions) if is_committed else [] for own, is_committed in enumerate(committed)]
        keys = self.keys_of(versions, unread, seen)
        events = Events(committed, keys, seen)
        if self.sessions:
            events.add_sessions(self.neighbours())
        if self.real_time:
            known = [own for own, is_answered in enumerate(self.answered_ones) if is_answered]
            events.add_times([(self.txns[own].answered, own) for own in known],
                             [(txn.sent, own) for own, txn in enumerate(self.txns) if committed[own] and txn.sent != NEVER])
        found = search(events, [[segment[0] for segment in key.segments] for key in keys])
        self.tell(found, sum(committed))
        edges = events.chosen_edges(found.orders)
        preferred = list(chain.from_iterable((4 * own, 4 * own + 1) for own in range(len(self.txns))))
        preferred += [0] * (len(events.after) - len(preferred))
        stamps = [0] * len(events.after)
        for stamp, event in enumerate(events.in_order(edges, preferred), 1):
            stamps[event] = stamp
        self.number_unread(keys, found.orders)
        return Sealed(self.told, self.lines(stamps), self.is_violated)

    def neighbours(self) -> Iterator[Tuple[int, int]]:
        """Committed transactions of one process, each with the one before it."""
        last: Dict[Any, int] = {}
        for own, is_answered in enumerate(self.answered_ones):
            if self.txns[own].status == COMMITTED:
                if self.txns[own].client in last:
                    yield last[self.txns[own].client], own
                if is_answered:
                    last[self.txns[own].client] = own

    def tell(self, found: Found, count: int) -> None:
        """What the search came to."""
        if not found.circle and not self.forks:
            self.told.append(f"sealed transactions={count}")
            return
        certain = "yes" if self.forks else found.certain
        self.told.append(f"no-order certain={certain}")
        self.told += self.forks[:1]
        if certain == "yes" and found.circle and not self.forks:
            steps = ", ".join(self.step(why) for why in found.circle)
            self.told.append(f"  knot {steps}" if is_by_value(found.circle) else f"circle {steps}")
        self.is_violated = self.is_violated or certain != "no"

    def step(self, why: Why) -> str:
        return f"{self.id(why.first)}-{why.label}->{self.id(why.second)}" + (f" key={self.text(why.key)}" if why.key >= 0 else "")

    def text(self, key: int) -> str:
        return json.dumps(self.history.keys[key], ensure_ascii=False)

    def id(self, own: int) -> int:
        return self.txns[own].id

    # ---- the log

    def number_unread(self, keys: List[Keys], orders: List[List[int]]) -> None:
        """The lists that nobody read, in their order: they go on from the longest one."""
        if not self.history.is_of_lists:
            return
        for key, (known, order) in enumerate(zip(keys, orders)):
            length = len(self.longest[key][1])
            behind = [own for own in known.certain if self._ends_unread(key, own)]
            for own in behind + [known.segments[place][0] for place in order]:
                for op in self.txns[own].ops:
                    if op.kind == APPEND and op.key == key and op.value not in self.lengths[key]:
                        length += 1
                        self.lengths[key][op.value] = length

    def _ends_unread(self, key: int, own: int) -> bool:
        last = [op.value for op in self.txns[own].ops if op.kind == APPEND and op.key == key][-1]
        return last not in self.lengths[key]

    def lines(self, stamps: List[int]) -> Iterator[str]:
        """The lines of the log."""
        texts = [self.text(key) for key in range(len(self.history.keys))]
        for key, value in self.history.set_up.items():
            yield f'{{"do":"setup","key":{texts[key]},"value":{value}}}\n'
        for own, txn in enumerate(self.txns):
            if txn.status == WITHDRAWN:
                continue
            ops = ",".join(self.written(txn.ops, txn.status == COMMITTED, texts))
            head = f'{{"do":"txn","id":{txn.id},"start":{stamps[2 * own] if txn.status == COMMITTED else 0},"status":"{txn.status}"'
            commit = f',"commit":{stamps[2 * own + 1]}' if txn.status == COMMITTED else ""
            yield f'{head}{commit},"ops":[{ops}]}}\n'

    def written(self, ops: List[Operation], is_committed: bool, texts: List[str]) -> Iterator[str]:
        """Each operation as the log has it."""
        for kind, key, value in ops:
            if kind == APPEND:
                length = self.lengths[key].get(value)
                if is_committed and length is not None:
                    yield f'["r",{texts[key]},{length - 1 or "null"}]'
                yield f'["w",{texts[key]},{self.next_unread() if length is None else length}]'
            elif kind == READ and self.history.is_of_lists:
                yield f'["r",{texts[key]},{self.number_of(key, value) or "null"}]'
            else:
                yield f'["{kind}",{texts[key]},{"null" if value is None else value}]'

    def number_of(self, key: int, place: Tuple[int, int]) -> int:
        length = self.length_of(key, place)
        if length is not None:
            return length
        elements = tuple(self.history.lists[key].lines[place[0]][:place[1]])
        if (key, elements) not in self.others:
            self.others[(key, elements)] = self.next_unread()
        return self.others[(key, elements)]

    def next_unread(self) -> int:
        self.unread += 1
        return self.unread


def linked(writers: List[int], followers: Dict[int, List[int]]) -> Keys:
    """The segments of a register: behind each writer comes the one that saw its version and wrote."""
    following = {writer: readers[0] for writer, readers in followers.items()}
    behind = set(following.values())
    done = set()

    def chain_from(own: Optional[int]) -> List[int]:
        found = []
        while own is not None and own not in done:
            done.add(own)
            found.append(own)
            own = following.get(own)
        return found
    certain = chain_from(following.get(INITIAL))
    segments = [chain_from(own) for own in writers if own not in behind and own not in done]
    segments += [chain_from(own) for own in writers if own not in done]
    return Keys(certain, [it for it in segments if it])


def placed(ops: List[Operation]) -> Iterator[Tuple[int, Operation]]:
    """The operations with their places in the log, where to append is two."""
    place = 0
    for op in ops:
        yield place, op
        place += 2 if op.kind == APPEND else 1


def check_lengths(history: History) -> None:
    for txn in history.txns:
        if sum(2 if op.kind == APPEND else 1 for op in txn.ops) > MOST_OPERATIONS:
            raise history.fault(txn.form, f"over {MOST_OPERATIONS} operations, where to append counts as two")


# ---- the command

class Shown:
    """Says on a terminal how far it is, at most each second."""

    def __init__(self, name: str) -> None:
        self.name, self.is_shown, self.said = name, sys.stderr.isatty(), time.monotonic()

    def __call__(self, what: str) -> None:
        if self.is_shown and time.monotonic() - self.said >= 1:
            self.said = time.monotonic()
            sys.stderr.write(f"\r\033[Ksicheck seal: {what}")
            sys.stderr.flush()

    def end(self) -> None:
        if self.is_shown:
            sys.stderr.write("\r\033[K")

    def lines(self, file: Iterable[str]) -> Iterator[str]:
        """The lines, of which some are counted."""
        for number, line in enumerate(file):
            if number % 10_000 == 0:
                self(f"{number} lines of {self.name} are read")
            yield line


def history_in(name: str, shown: Shown) -> History:
    """The history of the file, or of standard input where the name is `-`."""
    try:
        if name == "-":
            return read_history("standard input", shown.lines(sys.stdin))
        with open(name, encoding="utf-8") as file:
            return read_history(name, shown.lines(file))
    except UnicodeDecodeError:
        raise LogError(f"{name}: it isn't UTF-8") from None


def seal(name: str, log: Optional[str], sessions: bool, real_time: bool, write: Callable[[str], Any]) -> int:
    """Seals the history, writes what is said of it and the program's answer, and returns the status."""
    shown = Shown(name)
    try:
        history = history_in(name, shown)
        if real_time and not history.has_times:
            raise LogError(f"{history.name}: a log without stamps doesn't say when its transactions were sent")
        check_lengths(history)
        shown("an order is looked for")
        it = Sealing(history, sessions, real_time).sealed()
    finally:
        shown.end()
    for line in it.told:
        write(line + "\n")
    if log is not None:
        with open(log, "w", encoding="utf-8") as file:
            file.writelines(it.log)
        return judged(log, it.is_violated, write)
    with tempfile.NamedTemporaryFile("w", encoding="utf-8", suffix=".jsonl") as file:
        file.writelines(it.log)
        file.flush()
        return judged(file.name, it.is_violated, write)


def judged(log: str, is_violated: bool, write: Callable[[str], Any]) -> int:
    """The program's answer on the log, and the status."""
    words = [program_path(), "check", "--expect", "1", log if not log.startswith("-") else f"./{log}"]
    try:
        run = subprocess.Popen(words, stdin=subprocess.DEVNULL, stdout=subprocess.PIPE, env={**os.environ, NEVER_BUILD: "1"}, text=True, encoding="utf-8")
    except OSError as fault:
        raise CheckFailed(f"cannot run {words[0]}: {fault.strerror}") from None
    assert run.stdout is not None
    for line in run.stdout:
        is_violated = is_violated or line.startswith(CERTAIN_KINDS)
        write(line)
    run.stdout.close()
    status = run.wait()
    if status not in (CLEAN, OPEN, VIOLATION):
        raise CheckFailed(f"the program ended with the status {status}")
    return VIOLATION if is_violated else CLEAN if status == CLEAN else OPEN
