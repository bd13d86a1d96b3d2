"""What `number` reads: lines as those of a log, with the database's own words in place of stamps.

    {"do":"txn","id":1000007,"client":"1","seen":{"1":1000006,"2":2000003},"tie":12,"status":"committed","ops":[["w","x",7]]}

`seen` is what the transaction's snapshot sees, in one of three forms, the same for all:

- an object: by client what its row has, which is the id of its last writer; 0 or null, or no member, where there is none. `client` says whose
  transaction it is; without it that is the id divided by 1,000,000, as text
- a text: PostgreSQL's snapshot, as "745:749:745,747"; a writer has its own number as `xid`
- a number: of the snapshot; a writer that committed has `commit`, the number of its commit. They may have fractions

`tie` is what a writer drew from one counter of all clients right before its commit; with numbers it is asked for only where two commits have one.
A transaction in doubt needs what it would need if it had committed, since a `resolve` may say so, which has the `commit` there.
"""
import json
from bisect import bisect_left, bisect_right
from decimal import Decimal
from operator import itemgetter
from typing import Any, Dict, Iterable, Iterator, List, NamedTuple, Optional, Tuple, Union

from .chains import Sight, numbers_by_chains
from .faults import LogError, shown
from .log_lines import ABORTED, COMMITTED, IN_DOUBT
from .numbering import IDS
from .snapshots import Fork
from .stamping import AFTER, NO_START, Stamps, checked_stamp, start_stamp

Line = Dict[str, Any]
Exact = Union[int, Decimal]
MEMBERS = ("txn", "resolve", "withdraw", "setup")
STATUSES = (COMMITTED, ABORTED, IN_DOUBT)


class Numbered(NamedTuple):
    """The lines of the log, and the snapshots that contradict others, the first of them in full."""
    lines: Iterator[bytes]
    forks: Tuple[Fork, ...]
    fork_count: int


def no_constant(word: str) -> Any:
    raise ValueError(word + " is no JSON")


READER = json.JSONDecoder(parse_float=Decimal, parse_constant=no_constant)
WRITER = json.JSONEncoder(ensure_ascii=False, separators=(",", ":"), default=str)


class RawLog:
    """Raw lines, and what becomes of their transactions."""

    def __init__(self, lines: Iterable[Tuple[str, bytes]], stamps: Stamps) -> None:
        """Each line comes with the place at which a fault is told."""
        self.stamps = stamps
        self.lines: List[Line] = []
        self.where: Dict[int, str] = {}  # by id, of transactions
        self.resolved: Dict[int, Line] = {}
        for place, text in lines:
            if text.strip():
                self._take(place, text)
        self.txns = [it for it in self.lines if it["do"] == "txn"]
        self.writers = {it["id"]: it for it in self.txns if self._is_writer(it)}

    def _take(self, place: str, text: bytes) -> None:
        try:
            line = READER.decode(text.decode("utf-8"))
        except (ValueError, RecursionError):
            raise LogError(f"{place}: no JSON") from None
        if not isinstance(line, dict) or line.get("do") not in MEMBERS:
            raise LogError(f"{place}: no line of a log: `do` is txn, resolve, withdraw or setup")
        if line["do"] != "setup" and not is_whole(line.get("id")):
            raise LogError(f"{place}: the id {shown(line.get('id'))} is no whole number")
        if line["do"] == "txn":
            self._check(place, line)
            self.where[line["id"]] = place
        elif line["do"] == "resolve":
            self.resolved[line["id"]] = line
        elif line["do"] == "withdraw":
            raise LogError(f"{place}: a raw log has no `withdraw`: leave the false line out")
        self.lines.append(line)

    def _check(self, place: str, line: Line) -> None:
        if line["id"] in self.where:
            raise LogError(f"{place}: transaction {line['id']} stands at {self.where[line['id']]} already")
        if line.get("status") not in STATUSES or not isinstance(line.get("ops"), list):
            raise LogError(f"{place}: transaction {line['id']} has a `status` and `ops` as in a log")
        if "seen" not in line and line["status"] != ABORTED:
            raise LogError(f"{place}: transaction {line['id']} doesn't say what its snapshot has `seen`")

    def _is_writer(self, line: Line) -> bool:
        """Whether it is committed in the end, and has written."""
        status = line["status"]
        if status == IN_DOUBT:
            status = self.resolved.get(line["id"], {}).get("status")
        return status == COMMITTED and any(isinstance(op, list) and op[:1] == ["w"] for op in line["ops"])

    def fault(self, line: Line, why: str) -> LogError:
        return LogError(f"{self.where[line['id']]}: transaction {line['id']} {why}")

    def tie_of(self, line: Line) -> int:
        tie = line.get("tie")
        if not is_whole(tie):
            raise self.fault(line, f"has written, and {shown(tie)} is no `tie`: draw it from one counter of all clients right before the commit")
        return int(tie)  # type: ignore[arg-type]

    # ---- the three forms

    def numbered(self) -> Numbered:
        """The log."""
        seen = [it["seen"] for it in self.txns if "seen" in it]
        forms = {dict: self._by_rows, str: self._by_postgresql, int: self._by_numbers}
        form = next((it for it in forms if seen and isinstance(seen[0], it)), int)
        if form is int:
            starts, commits = self._by_numbers()
            return Numbered(self._told(starts, commits), (), 0)
        chains, sights = forms[form]()  # type: ignore[operator]
        numbers, count = numbers_by_chains(chains, {it["id"]: self.tie_of(it) for it in self.writers.values()}, sights)
        starts = {number: start_stamp(AFTER, start) for number, start in numbers.starts.items()}
        commits = {number: 2 * commit + 1 for number, commit in numbers.commits.items()}
        return Numbered(self._told(starts, commits), numbers.forks, count)

    def _by_rows(self) -> Tuple[List[List[int]], Dict[int, Sight]]:
        """The writers of each client by their ids, and how many of them each snapshot sees."""
        chains: Dict[str, List[int]] = {}
        for number, line in self.writers.items():
            chains.setdefault(str(line.get("client", number // IDS)), []).append(number)
        for ids in chains.values():
            ids.sort()
        # Nearly each row has a writer's id: so many are seen then.
        counts = [(client, {None: 0, 0: 0, **{number: count for count, number in enumerate(ids, 1)}}) for client, ids in chains.items()]
        sights = {}
        for line in self.txns:
            rows = line.get("seen")
            if not isinstance(rows, dict):
                self._refuse_form(line, "an object, as that of others is")
                continue
            get = rows.get
            try:
                lengths = [known[get(client)] for client, known in counts]
            except (KeyError, TypeError):
                lengths = [self._length(line, client, ids) for client, ids in chains.items()]
            sights[line["id"]] = Sight(tuple(lengths))
        return list(chains.values()), sights

    def _length(self, line: Line, client: str, ids: List[int]) -> int:
        """How many of a client's writers the transaction sees."""
        last = line["seen"].get(client) or 0
        if not is_whole(last):
            raise self.fault(line, f"has {shown(last)} in the row of client {client}, which is no id")
        return bisect_right(ids, last)

    def _by_postgresql(self) -> Tuple[List[List[int]], Dict[int, Sight]]:
        """The writers by their own numbers, how many of them each snapshot sees, and which were running still."""
        known = []
        for number, line in self.writers.items():
            if not is_whole(line.get("xid")):
                raise self.fault(line, f"has written, and {shown(line.get('xid'))} is no `xid`")
            known.append((line["xid"], number))
        known.sort()
        xids = [xid for xid, _ in known]
        place = {xid: (0, index) for index, xid in enumerate(xids)}
        sights = {}
        for line in self.txns:
            snapshot = line.get("seen")
            if not isinstance(snapshot, str):
                self._refuse_form(line, "a text, as that of others is")
                continue
            try:
                _, most, running = snapshot.split(":")
                unseen = tuple({place[int(it)] for it in running.split(",") if it and int(it) in place})
                sights[line["id"]] = Sight((bisect_left(xids, int(most)),), unseen)
            except ValueError:
                raise self.fault(line, f"has seen {shown(snapshot)}, which is no snapshot of PostgreSQL") from None
        return [[number for _, number in known]], sights

    def _by_numbers(self) -> Tuple[Dict[int, int], Dict[int, int]]:
        """The database's numbers as stamps. Where two commits share one, or some have fractions, their places in the order do instead."""
        commits: List[Tuple[Exact, int]] = []
        for number, line in self.writers.items():
            told = line if line["status"] == COMMITTED else self.resolved[number]
            if not is_exact(told.get("commit")):
                raise self.fault(line, f"has committed, and {shown(told.get('commit'))} is no number of a commit")
            commits.append((told["commit"], number))
        seen: List[Tuple[int, Exact]] = []
        for line in self.txns:
            if is_exact(line.get("seen")):
                seen.append((line["id"], line["seen"]))
            else:
                self._refuse_form(line, "a number, as that of others is")
        numbers = [commit for commit, _ in commits]
        if len(set(numbers)) == len(numbers) and all(is_whole(it) for it in (*numbers, *map(itemgetter(1), seen))):
            return ({number: start_stamp(self.stamps, int(start)) for number, start in seen},
                    {number: 2 * int(commit) + 1 for commit, number in commits})
        counts: Dict[Exact, int] = {}
        for commit in numbers:
            counts[commit] = counts.get(commit, 0) + 1
        order = sorted((commit, self.tie_of(self.writers[number]) if counts[commit] > 1 else 0, number) for commit, number in commits)
        numbers = [commit for commit, _, _ in order]
        count = bisect_right if self.stamps is AFTER else bisect_left
        return ({number: start_stamp(AFTER, count(numbers, start)) for number, start in seen},
                {number: 2 * place + 1 for place, (_, _, number) in enumerate(order, 1)})

    def _refuse_form(self, line: Line, form: str) -> None:
        """What a transaction has seen is of another form; one that was rolled back needn't say it."""
        if "seen" in line or line["status"] != ABORTED:
            raise self.fault(line, f"has seen {shown(line.get('seen'))}, which isn't {form}")

    # ---- the lines

    def _told(self, starts: Dict[int, int], commits: Dict[int, int]) -> Iterator[bytes]:
        for line in self.lines:
            if line["do"] == "txn":
                yield text_of(self._txn(line, starts, commits))
            elif line["do"] == "resolve" and line["id"] in self.where:
                told = {"do": "resolve", "id": line["id"], "status": line.get("status")}
                if line.get("status") == COMMITTED:
                    told["commit"] = checked_stamp(commits.get(line["id"], starts[line["id"]]))
                yield text_of(told)
            else:
                yield text_of(line)

    def _txn(self, line: Line, starts: Dict[int, int], commits: Dict[int, int]) -> Line:
        number = line["id"]
        told = {"do": "txn", "id": number, "start": checked_stamp(starts.get(number, NO_START)), "status": line["status"]}
        if line["status"] == COMMITTED:
            told["commit"] = checked_stamp(commits.get(number, told["start"]))
        told["ops"] = line["ops"]
        return told


def is_whole(it: Any) -> bool:
    return type(it) is int and it >= 0


def is_exact(it: Any) -> bool:
    return is_whole(it) or isinstance(it, Decimal) and it >= 0


def text_of(line: Line) -> bytes:
    return (WRITER.encode(line) + "\n").encode("utf-8", "surrogatepass")


def lines_of(names: List[str], standard_input: Optional[Iterable[bytes]]) -> Iterator[Tuple[str, bytes]]:
    """The lines of the files, or of standard input, each with its place."""
    for number, line in enumerate(standard_input or (), 1):
        yield f"standard input:{number}", line
    for name in names:
        with open(name, "rb") as file:
            for number, line in enumerate(file, 1):
                yield f"{name}:{number}", line
