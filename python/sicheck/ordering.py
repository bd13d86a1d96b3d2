"""An order of starts and commits under which a history is clean: a search that nobody need trust, since the program judges what it finds.

Each committed transaction has two events. Who saw a version started after its writer's commit and before the commit of the next writer; of two
writers of a key one commits before the other starts. Of lists all is in the data but the order of what nobody read, of registers the order of
writers of which neither saw the other. Such orders are chosen, and chosen anew where the events then go round in a circle.
"""
from collections import deque
from heapq import heapify, heappop, heappush
from typing import Any, Deque, Dict, Iterable, List, NamedTuple, Optional, Tuple

INITIAL, OTHER = -1, -2  # versions that no committed transaction installed: the first one, and what isn't to be read at all
MOST_ROUNDS = 2_000
MOST_EVENTS = 10_000_000  # of all rounds together
MOST_BEGINNINGS = 64  # from so many events a short circle is looked for

Pair = Tuple[int, int, int]  # on this key this segment comes before that one


class Why(NamedTuple):
    """Why one event comes before another: `wr` and `rw` by what was read, `before` and `ww` by the
    order of versions, `session` or `time`; the transactions, the key,
    and what was chosen for it."""
    label: str
    first: int
    second: int
    key: int = -1
    chosen: Optional[Pair] = None


class Keys(NamedTuple):
    """What is known of the versions of a key: those whose order is certain, from the initial one on, and the segments that come behind them in an
    order to be chosen. In a segment each transaction saw the version of the one before it."""
    certain: List[int]
    segments: List[List[int]]


class Found(NamedTuple):
    """What the search came to. `certain` says whether it is so of every order: `yes`, by the search alone, or `no`."""
    orders: List[List[int]]  # by key: the places of the segments
    circle: List[Why]
    certain: str
    rounds: int


class Events:
    """The events of the committed transactions, 2i and 2i + 1 for the start and the commit of transaction i, and behind them moments of time."""

    def __init__(self, committed: List[bool], keys: List[Keys], seen: List[List[Tuple[int, int]]]) -> None:
        """`seen` has for each transaction what it read before it wrote there: the key, and who installed what it read."""
        self.committed, self.keys, self.seen = committed, keys, seen
        self.after: List[List[int]] = [[] for _ in range(2 * len(committed))]
        self.next_of: List[Dict[int, int]] = []  # by key: the next writer after one, where that is certain
        self.tail_readers: List[Dict[int, List[int]]] = [{} for _ in keys]  # by key: who read the last version of a segment
        self.sessions: Dict[int, int] = {}
        self._add_certain()

    def _add_certain(self) -> None:
        for own, is_committed in enumerate(self.committed):
            if is_committed:
                self.after[2 * own].append(2 * own + 1)
        for number, key in enumerate(self.keys):
            following = {}
            for chain in (key.certain, *key.segments):
                for first, second in zip(chain, chain[1:]):
                    following[first] = second
                    self.after[2 * first + 1].append(2 * second)
                if chain is not key.certain or chain:
                    self.tail_readers[number][chain[-1]] = []
            if key.certain:
                following[INITIAL] = key.certain[0]
            else:
                self.tail_readers[number][INITIAL] = []
            self.next_of.append(following)
        for reader, seen in enumerate(self.seen):
            for key, writer in seen:
                if writer >= 0 and writer != reader:
                    self.after[2 * writer + 1].append(2 * reader)
                following_one = self.next_of[key].get(writer)
                if following_one is not None and following_one != reader:
                    self.after[2 * reader].append(2 * following_one + 1)
                elif writer in self.tail_readers[key]:
                    self.tail_readers[key][writer].append(reader)

    def add_sessions(self, neighbours: Iterable[Tuple[int, int]]) -> None:
        for first, second in neighbours:
            self.after[2 * first + 1].append(2 * second)
            self.sessions[second] = first

    def add_times(self, answered: List[Tuple[int, int]], sent: List[Tuple[int, int]]) -> None:
        """Each pair has a place in the history and a transaction: where its answer came, and where it was sent."""
        base, answered = len(self.after), sorted(answered)
        self.after += [[base + place + 1] for place in range(len(answered))]
        if answered:
            self.after[-1] = []
        for place, (_, own) in enumerate(answered):
            self.after[2 * own + 1].append(base + place)
        passed = 0
        for place, own in sorted(sent):
            while passed < len(answered) and answered[passed][0] < place:
                passed += 1
            if passed:
                self.after[base + passed - 1].append(2 * own)

    def chosen_edges(self, orders: List[List[int]]) -> Dict[int, List[Tuple[int, Why]]]:
        """What follows from the orders of segments: by event the events after it, and why."""
        edges: Dict[int, List[Tuple[int, Why]]] = {}
        for number, order in enumerate(orders):
            key = self.keys[number]
            before, tail = None, key.certain[-1] if key.certain else INITIAL
            for place in order:
                segment = key.segments[place]
                pair = None if before is None else (number, before, place)
                if tail >= 0:
                    edges.setdefault(2 * tail + 1, []).append((2 * segment[0], Why("ww", tail, segment[0], number, pair)))
                label = "rw" if (number, tail) in self.seen[segment[0]] else "before"
                for reader in self.tail_readers[number][tail]:
                    if reader != segment[0]:
                        edges.setdefault(2 * reader, []).append((2 * segment[0] + 1, Why(label, reader, segment[0], number, pair)))
                before, tail = place, segment[-1]
        return edges

    # ---- circles

    def left_over(self, edges: Dict[int, List[Tuple[int, Why]]]) -> List[int]:
        """The events on circles or between them; none where all can be put in order."""
        count = [0] * len(self.after)
        for following in self.after:
            for event in following:
                count[event] += 1
        for chosen in edges.values():
            for event, _ in chosen:
                count[event] += 1
        ready = [event for event, waits in enumerate(count) if not waits]
        for event in ready:
            for following in self.after[event]:
                count[following] -= 1
                if not count[following]:
                    ready.append(following)
            for following, _ in edges.get(event, ()):
                count[following] -= 1
                if not count[following]:
                    ready.append(following)
        if len(ready) == len(count):
            return []
        left = {event for event, waits in enumerate(count) if waits}
        return self._trimmed(left, edges)

    def _trimmed(self, left: set, edges: Dict[int, List[Tuple[int, Why]]]) -> List[int]:
        """Those of which one can go on without an end."""
        before: Dict[int, List[int]] = {event: [] for event in left}
        leads = {}
        for event in left:
            following = {it for it in self.after[event] if it in left} | {it for it, _ in edges.get(event, ()) if it in left}
            leads[event] = len(following)
            for it in following:
                before[it].append(event)
        ended = [event for event in left if not leads[event]]
        for event in ended:
            left.discard(event)
            for it in before[event]:
                leads[it] -= 1
                if not leads[it]:
                    ended.append(it)
        return sorted(left)

    def circle_among(self, left: List[int], edges: Dict[int, List[Tuple[int, Why]]]) -> List[Why]:
        """A circle with as few choices as some looks find, and of these a short one."""
        among, best, best_cost = set(left), [], (1 << 60)
        step = max(1, len(left) // MOST_BEGINNINGS)
        for begin in left[::step]:
            cost, path = self._way_back(begin, among, edges, best_cost)
            if path and cost < best_cost:
                best, best_cost = path, cost
        return self.reasons(best, edges)

    def _way_back(self, begin: int, among: set, edges: Dict[int, List[Tuple[int, Why]]], most: int) -> Tuple[int, List[int]]:
        """The cheapest way from an event back to it. A choice costs as much as a thousand steps."""
        costs, came, queue = {begin: 0}, {}, [(0, begin)]
        while queue:
            cost, event = heappop(queue)
            if cost >= most:
                break
            if cost > costs.get(event, 1 << 60):
                continue
            ways = [(it, 1) for it in self.after[event]]
            ways += [(it, 1_001 if why.chosen else 1) for it, why in edges.get(event, ())]
            for it, more in ways:
                if it not in among:
                    continue
                if it == begin:
                    path = [event]
                    while path[-1] != begin:
                        path.append(came[path[-1]])
                    return cost + more, path[::-1]
                if cost + more < costs.get(it, 1 << 60):
                    costs[it], came[it] = cost + more, event
                    heappush(queue, (cost + more, it))
        return 1 << 60, []

    def reasons(self, circle: List[int], edges: Dict[int, List[Tuple[int, Why]]]) -> List[Why]:
        """Why each event of the circle comes before the next one. That a start comes before its commit isn't told."""
        told: List[Why] = []
        moments = 2 * len(self.committed)
        begin = next((place for place, event in enumerate(circle) if event < moments), 0)
        circle = circle[begin:] + circle[:begin]
        since = -1  # who had committed before the moment from which one goes on
        for event, following in zip(circle, circle[1:] + circle[:1]):
            if event < moments <= following:
                since = event // 2
            if event >= moments > following:
                told.append(Why("time", since, following // 2))
            if event >= moments or following >= moments:
                continue
            if event // 2 == following // 2 and following == event + 1:
                continue
            told.append(self._why(event, following, edges))
        return told

    def _why(self, event: int, following: int, edges: Dict[int, List[Tuple[int, Why]]]) -> Why:
        first, second = event // 2, following // 2
        if event % 2:  # a commit before a start
            for key, writer in self.seen[second]:
                if writer == first:
                    return Why("wr", first, second, key)
            if self.sessions.get(second) == first:
                return Why("session", first, second)
        else:
            for key, writer in self.seen[first]:
                if self.next_of[key].get(writer) == second:
                    label = "rw" if (key, writer) in self.seen[second] else "before"
                    return Why(label, first, second, key)
        chosen = [why for it, why in edges.get(event, ()) if it == following]
        if chosen:
            return min(chosen, key=lambda why: why.chosen is not None)
        for number, key_ in enumerate(self.keys):
            for chain in (key_.certain, *key_.segments):
                for one, next_one in zip(chain, chain[1:]):
                    if one == first and next_one == second:
                        return Why("ww", first, second, number)
        return Why("ww", first, second)

    # ---- the order

    def in_order(self, edges: Dict[int, List[Tuple[int, Why]]], preferred: List[int]) -> List[int]:
        """The events in an order that keeps what it can, and by preference where there is a choice."""
        count = [0] * len(self.after)
        for following in self.after:
            for event in following:
                count[event] += 1
        for chosen in edges.values():
            for event, _ in chosen:
                count[event] += 1
        ready = [(preferred[event], event) for event, waits in enumerate(count) if not waits]
        heapify(ready)
        order: List[int] = []
        waiting: Deque[int] = deque(sorted((event for event, waits in enumerate(count) if waits), key=preferred.__getitem__))
        done = bytearray(len(count))
        while ready or waiting:
            if ready:
                event = heappop(ready)[1]
            else:
                event = waiting.popleft()
            if done[event]:
                continue
            if event % 2 and event < 2 * len(self.committed) and not done[event - 1] and self.committed[event // 2]:
                heappush(ready, (preferred[event - 1], event - 1))  # a circle is cut: the start comes first all the same
                heappush(ready, (preferred[event], event))
                continue
            done[event] = 1
            order.append(event)
            for following in self.after[event]:
                count[following] -= 1
                if not count[following]:
                    heappush(ready, (preferred[following], following))
            for following, _ in edges.get(event, ()):
                count[following] -= 1
                if not count[following]:
                    heappush(ready, (preferred[following], following))
        return order


def segments_in_order(key: int, count: int, chosen: Dict[Pair, bool], preferred: List[int]) -> Optional[List[int]]:
    """The places of a key's segments, by preference where nothing is chosen; None where what is chosen goes round in a circle."""
    after: Dict[int, List[int]] = {}
    waits = [0] * count
    for (_, first, second), holds in chosen.items():
        one, other = (first, second) if holds else (second, first)
        after.setdefault(one, []).append(other)
        waits[other] += 1
    ready = [(preferred[place], place) for place in range(count) if not waits[place]]
    heapify(ready)
    order = []
    while ready:
        place = heappop(ready)[1]
        order.append(place)
        for other in after.get(place, ()):
            waits[other] -= 1
            if not waits[other]:
                heappush(ready, (preferred[other], other))
    return order if len(order) == count else None


def search(events: Events, preferred: List[List[int]]) -> Found:
    """Orders of the segments under which the events go round in no circle. `preferred` has for each key a number for each segment."""
    counts = [len(key.segments) for key in events.keys]
    least = [sorted(range(count), key=preferred[number].__getitem__) for number, count in enumerate(counts)]
    edges = events.chosen_edges(least)
    left = events.left_over({})
    if left:
        return Found(least, events.circle_among(left, {}), "yes", 1)
    most = max(20, min(MOST_ROUNDS, MOST_EVENTS // (len(events.after) + 1)))
    todo: List[Dict[Pair, bool]] = [{}]
    rounds, circle, orders = 0, [], least
    while todo:
        if rounds == most:
            return Found(least, circle, "no", rounds)
        chosen = todo.pop()
        orders = ordered(events, chosen, least, preferred, counts)
        if orders is None:
            continue
        rounds += 1
        edges = events.chosen_edges(orders)
        left = events.left_over(edges)
        if not left:
            return Found(orders, [], "yes", rounds)
        circle = events.circle_among(left, edges)
        todo += reversed(branches(chosen, circle))
        if not any(why.chosen for why in circle):
            return Found(least, circle, "yes", rounds)
    return Found(least, circle, "search", rounds)


def ordered(events: Events, chosen: Dict[Pair, bool], least: List[List[int]], preferred: List[List[int]],
            counts: List[int]) -> Optional[List[List[int]]]:
    """The orders with these choices."""
    orders = list(least)
    by_key: Dict[int, Dict[Pair, bool]] = {}
    for pair, holds in chosen.items():
        by_key.setdefault(pair[0], {})[pair] = holds
    for key, pairs in by_key.items():
        order = segments_in_order(key, counts[key], pairs, preferred[key])
        if order is None:
            return None
        orders[key] = order
    return orders


def branches(chosen: Dict[Pair, bool], circle: List[Why]) -> List[Dict[Pair, bool]]:
    """One of the choices on the circle has to be another one: the first, or else the second, and so on."""
    kept, found = dict(chosen), []
    for why in circle:
        if why.chosen is None:
            continue
        key, first, second = why.chosen
        pair = why.chosen if first < second else (key, second, first)
        if pair in kept:
            continue
        found.append({**kept, pair: first > second})
        kept[pair] = first < second
    return found


def is_by_value(circle: List[Any]) -> bool:
    """Whether what was read says so by itself, whatever the order: then it is a knot."""
    return bool(circle) and all(why.label in ("wr", "rw") and why.chosen is None for why in circle)
