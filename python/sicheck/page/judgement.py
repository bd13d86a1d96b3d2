"""The findings of a key, worked out from the log by the definitions of docs/FORMAT.md, to compare an answer with; and what
a transaction should have seen.

This is a second reading of the same definitions, plain and slow. It isn't proved, and decides nothing: where it and the
answer differ, the answer isn't of this log.
"""
from bisect import bisect_left

from ..answers import (ABORTED_READ, DOUBT, FUTURE, INTERMEDIATE, LATER, OVERLAP, OWN, STALE, UNKNOWN, Finding)
from ..log_lines import ABORTED, IN_DOUBT

INITIAL = -1  # the place of the initial version before all others


class KeyHistory:
    """What is present on one key: the accesses of each record at their places, its versions, and who wrote each value."""

    def __init__(self, key, set_up):
        self.key, self.set_up = key, set_up
        self.accesses = {}  # by id: the record, and its accesses as pairs of a place and an operation
        self.writers = {}  # by value: the record that writes it
        self.finals = {}  # by id: what the last write of a record writes
        self.versions, self.commits = [], []  # the installers by their commits, and these

    @property
    def initial(self):
        """The value that the initial version returns."""
        return self.set_up.value if self.set_up else None

    def add(self, record, place, op):
        known = self.accesses.get(record.id)
        if known is None:
            known = self.accesses[record.id] = record, []
        known[1].append((place, op))
        if op.letter == "w":
            self.writers[op.value] = record
            self.finals[record.id] = op.value

    def order_versions(self):
        """Puts the versions into their order, once all accesses are added."""
        records = (self.accesses[number][0] for number in self.finals)
        self.versions = sorted((one for one in records if one.is_committed), key=lambda record: record.commit)
        self.commits = [record.commit for record in self.versions]

    def accesses_of(self, number):
        return self.accesses[number][1] if number in self.accesses else []

    def version_place(self, record):
        return bisect_left(self.commits, record.commit)

    def place_in_force(self, start):
        """The place of the version that a snapshot at the start sees: the last one that was installed before it."""
        return bisect_left(self.commits, start) - 1

    def version_value(self, place):
        return self.initial if place == INITIAL else self.finals[self.versions[place].id]

    def place_of_value(self, value):
        """The place of the version that returns the value, or None where no version does."""
        if value == self.initial:
            return INITIAL
        writer = self.writers.get(value)
        if writer is None or not writer.is_committed or self.finals[writer.id] != value:
            return None
        return self.version_place(writer)


def kind_by_source(history, reader, value):
    """The kind and the detail of a read by where its value comes from and by the version after that one; None without a
    finding. The cases come in the order of the format."""
    version = INITIAL
    if value != history.initial:
        writer = history.writers.get(value)
        if writer is None:  # so also where a set-up key was found without a value, which nobody writes
            return UNKNOWN, None
        if writer.status in (IN_DOUBT, ABORTED):
            return (DOUBT if writer.status == IN_DOUBT else ABORTED_READ), writer.id
        if history.finals[writer.id] != value:
            return INTERMEDIATE, writer.id
        if writer.commit > reader.start:
            return FUTURE, writer.id
        version = history.version_place(writer)
    if version + 1 < len(history.versions) and history.commits[version + 1] < reader.start:
        return STALE, history.versions[version + 1].id
    return None


def findings_of_reads(history, record, accesses):
    """The findings of the reads of one committed record. A read after an own write is judged by the last one alone, and one
    that returns what its own transaction writes later is judged by that."""
    written = {op.value for _, op in accesses if op.is_write} if record.id in history.finals else ()
    own = None
    for place, op in accesses:
        if op.is_write:
            own = op.value
            continue
        if own is not None:
            found = (OWN, own) if op.value != own else None
        else:
            found = (OWN, LATER) if op.value in written else kind_by_source(history, record, op.value)
        if found:
            yield Finding(found[0], history.key, record.id, place, op.value, found[1])


def findings_of(history):
    """All findings of the key, in order."""
    findings = []
    for record, accesses in history.accesses.values():
        if record.is_committed:
            findings.extend(findings_of_reads(history, record, accesses))
    for first, second in zip(history.versions, history.versions[1:]):
        if second.start < first.commit:
            findings.append(Finding(OVERLAP, history.key, first.id, second.id))
    return sorted(findings, key=Finding.order)


def key_histories(history):
    """What is present on each key."""
    keys = {}
    for set_up in history.set_ups.values():
        keys[set_up.key] = KeyHistory(set_up.key, set_up)
    for record in history.records.values():
        for place, op in enumerate(record.ops):
            if op.key not in keys:
                keys[op.key] = KeyHistory(op.key, None)
            keys[op.key].add(record, place, op)
    for one in keys.values():
        one.order_versions()
    return keys


def expected_read(history, record, place):
    """What a read at the place should have seen: `own` with the place of the own write, or `version` with the place of the
    version that its snapshot sees; and the value."""
    own = [(at, op.value) for at, op in history.accesses_of(record.id) if at < place and op.is_write]
    if own:
        return "own", *own[-1]
    version = history.place_in_force(record.start)
    return "version", version, history.version_value(version)
