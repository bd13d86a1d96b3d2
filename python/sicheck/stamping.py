"""Stamps and versions of a line, from the database's numbers."""
import enum
from typing import Any, List, Mapping, Optional, Tuple

from .faults import LogError, shown
from .log_lines import GREATEST

NO_START = 0  # the stamp of an aborted transaction, or of one in doubt, whose start isn't known: no commit has an even one


class Stamps(enum.Enum):
    """How the database's numbers of snapshots and commits become stamps."""
    AFTER = "after"
    """A snapshot at s sees the commit at s: 2s + 2 and 2c + 1."""
    AT = "at"
    """A snapshot at s doesn't see the commit at s: 2s and 2c + 1."""
    COMMIT_ORDER = "commit order"
    """The number of the commit is all there is, and each transaction is judged where it commits: 2c and 2c + 1."""


AFTER, AT, COMMIT_ORDER = Stamps.AFTER, Stamps.AT, Stamps.COMMIT_ORDER


def is_number(it: Any) -> bool:
    """Whether it is a whole number of 64 bits without a sign."""
    return type(it) is int and 0 <= it <= GREATEST


def start_stamp(stamps: Stamps, start: int) -> int:
    """The stamp of a snapshot that the database calls `start`."""
    return 2 * start if stamps is AT else 2 * start + 2


def checked_stamp(stamp: int) -> int:
    """The stamp, where the format has room for it."""
    if not is_number(stamp):
        raise LogError(f"the stamp {stamp} isn't one of 64 bits")
    return stamp


def checked_number(what: str, it: Any) -> int:
    """The number, where it is a whole one of 64 bits."""
    if not is_number(it):
        raise LogError(f"a {what} is a whole number of 64 bits, and {shown(it)} isn't")
    return int(it)


def checked_value(it: Any) -> int:
    if not is_number(it):
        raise LogError(f"a value is a whole number from 0 to {GREATEST}, and {shown(it)} isn't")
    return int(it)


def checked_rule(it: Any) -> Stamps:
    """How numbers become stamps: one of the three ways."""
    if not isinstance(it, Stamps):
        raise LogError(f"stamps are AFTER, AT or COMMIT_ORDER, and not {shown(it)}")
    return it


def checked_start(stamps: Stamps, start: Any) -> int:
    """The database's number of a snapshot, where it and its stamp are numbers of the format."""
    checked_stamp(start_stamp(stamps, checked_number("start", start)))
    return int(start)


def checked_versions(versions: Any) -> Mapping[str, int]:
    """The versions by key, which the caller may have left out."""
    if versions is None:
        return {}
    if not isinstance(versions, Mapping):
        raise LogError(f"versions are numbers by key, and {shown(versions)} aren't")
    return dict(versions)


def with_versions(ops: List[List[Any]], places: List[int], stamp: Optional[int], versions: Mapping[str, int]) -> List[List[Any]]:
    """The operations, those at the places with their versions as values."""
    if not places:
        return ops
    told = [list(op) for op in ops]
    for place in places:
        key = told[place][1]
        version = versions.get(key, stamp)
        if version is None or not is_number(version):
            raise LogError(f"the version of the key {shown(key)} is no number of 64 bits: {shown(version)}")
        told[place][2] = version
    pairs = [(op[1], op[2]) for op in told if op[0] == "w"]
    if len(set(pairs)) < len(pairs):
        raise LogError("a version is written twice to a key: log its last write alone")
    return told


def stamps_of(number: int, start: Optional[int], stamps: Stamps, writes: bool, stamp: Optional[int]) -> Tuple[int, int]:
    """The stamps of a committed transaction, from the database's numbers."""
    if stamps is COMMIT_ORDER:
        last = stamp if stamp is not None or writes else start
        if last is None or not is_number(last):
            raise LogError(f"the commit of transaction {number} needs its number in the order of commits, and has {shown(last)}")
        checked_stamp(2 * last + 2)
        return (2 * last, 2 * last + 1) if writes else (2 * last + 2, 2 * last + 2)
    if start is None:
        raise LogError(f"the start of transaction {number} isn't known: set `start` before its outcome")
    begin = checked_stamp(start_stamp(stamps, start))
    return begin, commit_stamp(number, begin, writes, stamp)


def commit_stamp(number: int, begin: int, writes: bool, stamp: Optional[int]) -> int:
    """The stamp of a commit in snapshots, beside the stamp of its start."""
    if not writes:
        return begin
    if stamp is None or not is_number(stamp):
        raise LogError(f"transaction {number} has written, so its commit needs the database's number, and has {shown(stamp)}")
    end = checked_stamp(2 * stamp + 1)
    if end <= begin:
        raise LogError(f"transaction {number} would commit at {end}, before its start at {begin}: the numbers are swapped, or not of one kind")
    return end
