"""Numbers for the snapshots and commits of a database that gives none, but lets a transaction find out which others its snapshot sees.

PostgreSQL tells it by itself. Elsewhere each client has a row of its own, in the table that is tested, to which each of its writers writes
its id, and each transaction reads the rows of all clients first: its snapshot sees a writer if the row of the writer's client has that
writer's id or a later one. No two clients write one row, so nobody waits for another or is rolled back who else wouldn't be.
"""
from operator import add, itemgetter
from typing import Callable, Dict, Hashable, Iterable, Iterator, List, Mapping, NamedTuple, Sequence, Tuple, TypeVar

Reader = TypeVar("Reader", bound=Hashable)
Writer = TypeVar("Writer", bound=Hashable)


class Fork(NamedTuple):
    """Two snapshots of which none can be the earlier one: that of `reader` sees `seen` and not `missed`, that of `other` sees `missed` and not
    `seen`. No order of the commits has both, so snapshot isolation is violated, whatever the checker says of the log."""
    reader: Hashable
    other: Hashable
    seen: Hashable
    missed: Hashable

    def __str__(self) -> str:
        return (f"fork: the snapshot of {self.reader} sees {self.seen} and not {self.missed}, "
                f"and that of {self.other} sees {self.missed} and not {self.seen}")


class Numbers(NamedTuple):
    """What `numbers_by_snapshots` has found."""
    starts: Dict[Hashable, int]
    """For each transaction the number of its snapshot. It sees the commits up to that number."""
    commits: Dict[Hashable, int]
    """For each writer the number of its commit, from 1."""
    forks: Tuple[Fork, ...]
    """Each snapshot that no order of the commits has together with another one. A run with one hasn't passed."""


def numbers_by_snapshots(snapshots: Mapping[Reader, Callable[[Writer], bool]], writers: Iterable[Writer]) -> Numbers:
    """The numbers of the snapshots and of the writers' commits, and the snapshots that contradict others. A start at s sees the commit at s.

    `snapshots` has for each transaction whether its snapshot sees a writer. `writers` are all that committed, in the order of a counter that
    each has drawn **right before its commit**, while it held what it had written. That order is taken where all snapshots see both of two
    writers or none of them. Any other order is false where the one overwrote the other unseen: then what the first one wrote would count as
    the newest, and each later read, which rightly finds the second one's, as `stale`. (That it overwrote unseen is an `overlap` all the same.)

    A commit's number is its place in the order, from 1: who is seen by more snapshots comes before who is seen by fewer. A snapshot's is how
    many of the first writers it sees, without a gap. One that sees a writer behind a gap contradicts another one, and is a fork: the rest is
    numbered as if it weren't there, where the others agree. So log all, and let the test fail where there are forks.

    Each snapshot is asked of each writer: with 10,000 transactions that is some 10 s. `python3 -m sicheck number` asks for less, and takes 5 s for
    100,000.

    >>> numbers_by_snapshots({"a": lambda it: False, "b": lambda it: it == 7, "c": lambda it: True}, [5, 7])
    Numbers(starts={'a': 0, 'b': 1, 'c': 2}, commits={7: 1, 5: 2}, forks=())
    """
    writers = list(dict.fromkeys(writers))
    seen: Dict[Reader, int] = {}
    counts = [0] * len(writers)
    for reader, sees in snapshots.items():
        row = bytes(1 if sees(writer) else 0 for writer in writers)
        counts = list(map(add, counts, row))
        seen[reader] = _packed(row)
    order = sorted(range(len(writers)), key=lambda place: -counts[place])  # equals stay in the order in which they came
    starts = {reader: _length_without_gap(_in_order(bits, order)) for reader, bits in seen.items()}
    commits = {writers[place]: number for number, place in enumerate(order, 1)}
    return Numbers(starts, commits, tuple(_forks(seen, starts, writers, order)))


def _packed(row: bytes) -> int:
    """A bit for each writer, the first one's highest: a row of bytes for each snapshot would take eight times the memory."""
    return int(b"1" + row.translate(_DIGITS), 2)


_DIGITS = b"01" + bytes(254)


def _in_order(bits: int, order: Sequence[int]) -> str:
    """A 1 for each writer that is seen and a 0 for each other one, in that order."""
    row = format(bits, "b")[1:]
    return "".join(itemgetter(*order)(row)) if len(order) > 1 else row


def _length_without_gap(row: str) -> int:
    """How many writers are seen before the first that isn't."""
    gap = row.find("0")
    return len(row) if gap < 0 else gap


def _forks(seen: Mapping[Reader, int], starts: Mapping[Reader, int], writers: List[Writer], order: Sequence[int]) -> Iterator[Fork]:
    """Each snapshot that sees a writer behind a gap. The writer in the gap is seen by at least as many, so another one sees it and not that one."""
    for reader, bits in seen.items():
        last = _in_order(bits, order).rfind("1")
        if last > starts[reader]:
            one, missed = _bit(writers, order[last]), _bit(writers, order[starts[reader]])
            other = next(it for it, others in seen.items() if others & missed and not others & one)
            yield Fork(reader, other, writers[order[last]], writers[order[starts[reader]]])


def _bit(writers: Sequence[Writer], place: int) -> int:
    return 1 << (len(writers) - 1 - place)
