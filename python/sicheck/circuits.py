"""What `seal` tells before the program's answer: among it forks and knots, which no stamps mend."""
import json
import re
from typing import List, NamedTuple, Optional

NUMBER = "[0-9]{1,20}"
TOLD = re.compile(r"(?:sealed transactions=|no-order certain=|(?:apart|twice) key=|circle |  fork key=|  knot ).*")
FORK = re.compile(f" ({NUMBER}) ({NUMBER})")
EDGE = re.compile(f"({NUMBER})-(wr|rw)->({NUMBER}) key=")
READER = json.JSONDecoder()


class Step(NamedTuple):
    """An edge of a fork or a knot: by `wr` the second read what the first wrote to the key, by `rw` it overwrote what both read."""
    first: int
    label: str
    second: int
    key: str


def is_told(line: str) -> bool:
    """Whether `seal` writes such a line before the program's answer."""
    return TOLD.fullmatch(line) is not None


def steps_of(line: str) -> Optional[List[Step]]:
    """The steps of the fork or the knot that the line is, or None where it is neither. In a fork each overwrote what both read."""
    try:
        if line.startswith("  fork key="):
            key, end = READER.raw_decode(line, len("  fork key="))
            pair = FORK.fullmatch(line, end)
            return [Step(int(pair[1]), "rw", int(pair[2]), key), Step(int(pair[2]), "rw", int(pair[1]), key)]
        return knot_steps(line) if line.startswith("  knot ") else None
    except (ValueError, TypeError):
        return None


def knot_steps(line: str) -> List[Step]:
    steps, end = [], len("  knot ")
    while True:
        edge = EDGE.match(line, end)
        key, end = READER.raw_decode(line, edge.end() if edge else len(line))
        steps.append(Step(int(edge[1]), edge[2], int(edge[3]), key))
        if end == len(line):
            return steps
        if line[end:end + 2] != ", ":
            raise ValueError
        end += 2
