"""The order of commits by what snapshots see, in time that grows with what was logged and not with its square.

Writers stand in chains: of each chain a snapshot sees so many of the first ones, but perhaps for some that it names. A client's writers are a
chain, since its row has the last of them; PostgreSQL's are one chain by their ids, of which a snapshot names those that were still running.
"""
from itertools import accumulate
from typing import Dict, Iterator, List, NamedTuple, Sequence, Tuple

from .snapshots import Fork, Numbers

MOST_FORKS = 20  # are told in full: each takes a look at every snapshot
Place = Tuple[int, int]  # a writer: its chain, and how many of the chain come before it


class Sight(NamedTuple):
    """What a snapshot sees: of each chain so many of the first ones, but for these."""
    lengths: Tuple[int, ...]
    unseen: Tuple[Place, ...] = ()

    def sees(self, writer: Place) -> bool:
        return writer[1] < self.lengths[writer[0]] and writer not in self.unseen

    def count(self) -> int:
        """How many it sees."""
        return sum(self.lengths) - len(self.unseen)


def numbers_by_chains(chains: Sequence[Sequence[int]], ties: Dict[int, int], sights: Dict[int, Sight]) -> Tuple[Numbers, int]:
    """What `numbers_by_snapshots` gives for the same snapshots and writers, of which `ties` has the counter of each; and how many forks there
    are, of which the first ones are told."""
    order = sorted(((chain, index) for chain, writers in enumerate(chains) for index in range(len(writers))),
                   key=_Rank(chains, ties, sights))
    places: List[List[int]] = [[0] * len(writers) for writers in chains]
    for number, (chain, index) in enumerate(order):
        places[chain][index] = number
    # The first place that isn't seen, where so many of a chain are.
    behind = [list(accumulate(reversed([*row, len(order)]), min))[::-1] for row in places]
    starts = {}
    for reader, (lengths, unseen) in sights.items():
        first = min([row[length] for row, length in zip(behind, lengths)], default=0)
        starts[reader] = min([first, *(places[chain][index] for chain, index in unseen)]) if unseen else first
    commits = {chains[chain][index]: number for number, (chain, index) in enumerate(order, 1)}
    gaps = [reader for reader, sight in sights.items() if sight.count() > starts[reader]]
    forks = tuple(_forks(gaps[:MOST_FORKS], chains, order, starts, sights))
    return Numbers(dict(starts), dict(commits), forks), len(gaps)


class _Rank:
    """Who is seen by more snapshots comes first; of equals who drew the counter first."""

    def __init__(self, chains: Sequence[Sequence[int]], ties: Dict[int, int], sights: Dict[int, Sight]) -> None:
        self._chains, self._ties = chains, ties
        seen = [[0] * (len(writers) + 1) for writers in chains]  # how many snapshots see just so many of the chain
        self._missed: Dict[Place, int] = {}
        for sight in sights.values():
            for chain, length in enumerate(sight.lengths):
                seen[chain][length] += 1
            for writer in sight.unseen:
                self._missed[writer] = self._missed.get(writer, 0) + 1
        self._seen = [list(accumulate(reversed(row)))[::-1] for row in seen]

    def __call__(self, writer: Place) -> Tuple[int, int]:
        chain, index = writer
        count = self._seen[chain][index + 1] - self._missed.get(writer, 0)
        return -count, self._ties[self._chains[chain][index]]


def _forks(readers: Sequence[int], chains: Sequence[Sequence[int]], order: Sequence[Place], starts: Dict[int, int],
           sights: Dict[int, Sight]) -> Iterator[Fork]:
    """The snapshots that see a writer behind a gap. As many see the writer in the gap, so another one does that doesn't see that one."""
    for reader in readers:
        one = next(it for it in reversed(order) if sights[reader].sees(it))
        missed = order[starts[reader]]
        other = next(it for it, sight in sights.items() if sight.sees(missed) and not sight.sees(one))
        yield Fork(reader, other, chains[one[0]][one[1]], chains[missed[0]][missed[1]])
