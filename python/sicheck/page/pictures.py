"""What the picture of a finding shows: the transactions as lanes, and the versions of the key around them."""
from typing import NamedTuple, Optional

from ..answers import INTERMEDIATE, LATER, OVERLAP, OWN, STALE, UNKNOWN
from .judgement import INITIAL
from ..log_lines import COMMITTED
from .wording import STATUSES, value_shown

MOST_OPERATIONS = 8  # in a lane
MOST_GHOSTS = 2


class Chip(NamedTuple):
    """An operation in a lane, or so many that are left out."""
    text: str
    is_write: bool = False
    is_wrong: bool = False
    is_left_out: bool = False


class Lane(NamedTuple):
    """A transaction as a bar. Without an end it is open, and `state` says why."""
    id: int
    role: str
    start: int
    end: Optional[int]
    state: str
    chips: list
    is_reader: bool = False
    is_ghost: bool = False


class Version(NamedTuple):
    """A version of the key from its stamp on, or so many that are left out. The first has no stamp."""
    begins: Optional[int]
    text: str
    origin: str
    tags: tuple = ()
    is_left_out: bool = False


class Picture(NamedTuple):
    lanes: list
    versions: list
    snapshot: Optional[int]  # the start of the reader
    overlap: Optional[tuple]  # from the second one's start to the first one's commit


def kept_places(important, least, most):
    """The important places with their neighbours from least to most, and those between which one alone would be left out."""
    kept = {near for place in important for near in (place - 1, place, place + 1) if least <= near <= most}
    for bound, beside in ((least, least + 1), (most, most - 1)):
        if beside in kept:
            kept.add(bound)
    return sorted(kept | {place + 1 for place in kept if place + 2 in kept})


def with_gaps(kept, least, most):
    """The kept places in order, and pairs of a first and a last place where some between are left out."""
    result, expected = [], least
    for place in kept:
        if place > expected:
            result.append((expected, place - 1))
        result.append(place)
        expected = place + 1
    if expected <= most:
        result.append((expected, most))
    return result


def access_text(place, op):
    return f"{place}: {'writes' if op.is_write else 'reads'} {value_shown(op.value)}"


def shown_accesses(accesses, important, most=MOST_OPERATIONS):
    """The accesses to show, or, as pairs of places in the list, those left out: all where they are few, else the important
    ones with their neighbours, the first and the last."""
    last = len(accesses) - 1
    if len(accesses) <= most:
        return list(range(len(accesses)))
    wanted = [number for number, (place, _) in enumerate(accesses) if place in important]
    return with_gaps(kept_places([0, *wanted, last], 0, last), 0, last)


def chips_of(accesses, important, wrong):
    chips = []
    for shown in shown_accesses(accesses, important):
        if isinstance(shown, tuple):
            chips.append(Chip(f"{shown[1] - shown[0] + 1:,} more", is_left_out=True))
        else:
            place, op = accesses[shown]
            chips.append(Chip(access_text(place, op), op.is_write, place == wrong))
    return chips


def important_places(finding, accesses):
    """The places of a transaction's operations that the finding is about."""
    values = {finding.read} if finding.kind != OVERLAP else set()
    if finding.kind == OWN and finding.detail != LATER:
        values.add(finding.detail)
    writes = [place for place, op in accesses if op.is_write]
    return {place for place, op in accesses if op.is_write and op.value in values} | set(writes[-1:])


def lane_of(finding, keys, record, role):
    accesses = keys.accesses_of(record.id)
    is_reader = finding.kind != OVERLAP and record.id == finding.first
    wrong = finding.second if is_reader else None
    important = important_places(finding, accesses)
    if is_reader:
        important.add(wrong)
    elif finding.kind == OVERLAP and record.id == finding.second:
        wrong = max(place for place, op in accesses if op.is_write)
    state = "" if record.status == COMMITTED else STATUSES[record.status]
    return Lane(record.id, role, record.start, record.commit, state, chips_of(accesses, important, wrong), is_reader)


def roles_of(finding, keys, history):
    """The records that the picture shows, each with its part in the finding, in the order of the lanes."""
    if finding.kind == OVERLAP:
        return [(history.records[finding.first], "installed the version that was overwritten"),
                (history.records[finding.second], f"overwrote it, started before {finding.first} committed")]
    reader = history.records[finding.first]
    roles = {}
    if finding.kind != OWN:
        writer = keys.writers.get(finding.read)
        if writer:
            roles.setdefault(writer.id, []).append("what was read")
        if finding.kind == STALE:
            roles.setdefault(finding.detail, []).append("what was missed")
        version = keys.place_in_force(reader.start)
        if version != INITIAL:
            roles.setdefault(keys.versions[version].id, []).append("what should have been seen")
    roles.pop(reader.id, None)
    others = sorted((history.records[number] for number in roles), key=lambda one: (one.start, one.id))
    return [(one, "wrote " + " and ".join(roles[one.id])) for one in others] + [(reader, "the reader")]


def ghost_lanes(finding, ghosts):
    """Lanes of those who wrote the value that was read and aren't present, since they were withdrawn or refused."""
    lanes = []
    for ghost in ghosts.get((finding.key, finding.read), ())[:MOST_GHOSTS]:
        arrival = ghost.arrival
        accesses = [(place, op) for place, op in enumerate(arrival.ops) if op.key == finding.key]
        places = {place for place, op in accesses if op.is_write and op.value == finding.read}
        state = f"refused: {ghost.refusal.reason.split()[0]}" if ghost.refusal else "withdrawn"
        lanes.append(Lane(arrival.id, f"wrote what was read, {'and was refused' if ghost.refusal else 'and was withdrawn'}",
                          arrival.start, arrival.commit, state, chips_of(accesses, places, None), is_ghost=True))
    return lanes


def version_tags(finding, keys, history):
    """What is said of the versions, by their places."""
    tags = {}
    if finding.kind == OVERLAP:
        first, second = (keys.version_place(history.records[number]) for number in (finding.first, finding.second))
        return {first: ["was overwritten"], second: ["overwrote it"]}
    # What is unknown is of no version, though a set-up key has an initial one and the read found nothing.
    read = keys.place_of_value(finding.read) if finding.kind != UNKNOWN else None
    if read is not None:
        tags.setdefault(read, []).append("was read")
    if finding.kind == STALE:
        tags.setdefault(keys.version_place(history.records[finding.detail]), []).append("was missed")
    if finding.kind == INTERMEDIATE:
        tags.setdefault(keys.version_place(history.records[finding.detail]), []).append("replaced what was read")
    if finding.kind != OWN:
        in_force = keys.place_in_force(history.records[finding.first].start)
        tags.setdefault(in_force, []).append("should have been seen")
    return tags


def versions_of(finding, keys, history):
    """The versions around those that the finding is about."""
    tags = version_tags(finding, keys, history)
    important = list(tags) or [keys.place_in_force(history.records[finding.first].start)]
    last = len(keys.versions) - 1
    versions = []
    for shown in with_gaps(kept_places(important, INITIAL, last), INITIAL, last):
        place = shown[0] if isinstance(shown, tuple) else shown
        begins = None if place == INITIAL else keys.commits[place]
        if isinstance(shown, tuple):
            versions.append(Version(begins, f"{shown[1] - place + 1:,} more", "versions", is_left_out=True))
            continue
        origin = f"by {keys.versions[place].id}" if place != INITIAL else "set up before" if keys.set_up else "at first"
        versions.append(Version(begins, value_shown(keys.version_value(place)), origin, tuple(tags.get(place, ()))))
    return versions


def picture_of(finding, history, keys, ghosts):
    """The picture of a finding, over what is present on its key."""
    lanes = [lane_of(finding, keys, record, role) for record, role in roles_of(finding, keys, history)]
    lanes = ghost_lanes(finding, ghosts) + lanes
    versions = versions_of(finding, keys, history)
    if finding.kind == OVERLAP:
        first, second = history.records[finding.first], history.records[finding.second]
        return Picture(lanes, versions, None, (second.start, first.commit))
    return Picture(lanes, versions, history.records[finding.first].start, None)
