"""Ids and values that lead back to where they come from.

An id is its client's number times 1,000,000, plus which of the client's transactions it is, from 1. A value is the id of its writer
times 4,096, which is the most operations that a transaction may have, plus its place among the transaction's operations. So clients
share no id and no value, and the numbers below 4,096,000,000, which is the first client's first value, are free for values from before
the run.
"""
from typing import NamedTuple

from .log_lines import GREATEST, MOST_OPERATIONS

IDS = 1_000_000
PLACES = MOST_OPERATIONS
MOST_CLIENT = GREATEST // PLACES // IDS - 1


class Origin(NamedTuple):
    """Where a value comes from: the id of its writer, with its client and which of the client's it is, and the operation's place."""
    id: int
    client: int
    number: int
    place: int


def client_of(number: int) -> int:
    """The client of the transaction that has the id."""
    return number // IDS


def origin_of(value: int) -> Origin:
    """Where a value comes from that a log gave out.

    >>> origin_of(4096 * 3_000_007 + 2)
    Origin(id=3000007, client=3, number=7, place=2)
    """
    number, place = divmod(value, PLACES)
    return Origin(number, number // IDS, number % IDS, place)
