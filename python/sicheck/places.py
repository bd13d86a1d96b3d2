"""Where the lines of transactions stand in the files of a log."""
import os
import re
from array import array
from typing import Any, Dict, Iterable, Iterator, List, NamedTuple, Optional, Sequence, Tuple

from .log_lines import LineFault, json_value

# The beginning of a line in the form that most have.
USUAL = re.compile(rb'\{"do":"txn","id":([0-9]{1,20}),"start":[0-9]{1,20},'
                   rb'"status":"(?:committed","commit":[0-9]{1,20}|aborted"|indoubt"),"ops":\[')


class FilePlace(NamedTuple):
    """A line of a file, from 1."""
    file: str
    line: int

    def __str__(self) -> str:
        return f"{self.file}:{self.line}"


Places = Dict[int, Tuple[FilePlace, ...]]


def object_in(line: bytes) -> Dict[str, Any]:
    """The object that the line is; an empty one where it is none."""
    try:
        it = json_value(line.rstrip(b"\n"))
    except LineFault:
        return {}
    return it if isinstance(it, dict) else {}


def id_in(line: bytes) -> int:
    """The id that the line names, or -1."""
    usual = USUAL.match(line)
    if usual and line.count(b'"id"') == 1 and b"\\" not in line and line.endswith((b"]}\n", b"]}")):
        return int(usual[1])
    if b'"id"' not in line and b"\\" not in line:
        return -1
    number = object_in(line).get("id")
    return number if type(number) is int else -1


class Files:
    """The files of a log. Each is read for places only once somebody asks, and once, even where it grows meanwhile."""

    def __init__(self, names: Sequence[str], others: Optional[str] = None) -> None:
        self.names = list(names)
        self._others = others  # what has no name
        self._first: Dict[int, int] = {}  # by id: its first line, as its number times the number of files, and the file's number
        self._later: Dict[int, List[int]] = {}  # the others, of an id that has several
        self._read_to = [(0, 0)] * len(self.names)  # of each file: so many bytes, and so many lines

    def place(self, source: int, line: int) -> FilePlace:
        """The place of a line that the checker names by its source."""
        if source < len(self.names):
            return FilePlace(self.names[source], line)
        return FilePlace(self._others or f"source {source}", line)

    def places_of(self, ids: Iterable[int]) -> Places:
        """The lines of each of these transactions: its own, and those that resolve or withdraw it."""
        ids = list(dict.fromkeys(ids))
        if any(number not in self._first for number in ids):
            self._read_on()
        return {number: tuple(self._places(number)) for number in ids}

    def starts_of(self, ids: Iterable[int]) -> Dict[int, int]:
        """The start stamps of those of these transactions that have a line in the files."""
        wanted, starts = set(ids), {}
        for name in self.names if wanted else ():
            for line in _lines_of(name):
                if id_in(line) in wanted:
                    it = object_in(line)
                    if it.get("do") == "txn" and type(it.get("start")) is int:
                        starts[it["id"]] = it["start"]
        return starts

    def _places(self, number: int) -> Iterator[FilePlace]:
        if number in self._first:
            for it in (self._first[number], *self._later.get(number, ())):
                line, file = divmod(it, len(self.names))
                yield FilePlace(self.names[file], line)

    def _read_on(self) -> None:
        for file, name in enumerate(self.names):
            offset, count = self._read_to[file]
            for line in _lines_of(name, offset):
                self._note(id_in(line), (count + 1) * len(self.names) + file)
                if not line.endswith(b"\n"):  # it may grow
                    break
                offset, count = offset + len(line), count + 1
            self._read_to[file] = offset, count

    def _note(self, number: int, place: int) -> None:
        if number < 0 or self._first.setdefault(number, place) == place:
            return
        later = self._later.setdefault(number, [])
        if place not in later[-1:]:
            later.append(place)


def _lines_of(name: str, offset: int = 0) -> Iterator[bytes]:
    """The lines of a regular file from there on."""
    if os.path.isfile(name):
        with open(name, "rb") as file:
            file.seek(offset)
            yield from file


class FedLines(Files):
    """The lines of several files as they were handed to the checker, which knows them as one."""

    def __init__(self, names: Sequence[str]) -> None:
        super().__init__(names)
        self._counts = [0] * len(self.names)
        self._files, self._lines = array("H"), array("Q")

    def hand_over(self, file: int) -> None:
        """The next line that the checker reads is the next one of that file."""
        self._counts[file] += 1
        self._files.append(file)
        self._lines.append(self._counts[file])

    def place(self, source: int, line: int) -> FilePlace:
        if not 1 <= line <= len(self._files):
            return FilePlace("standard input", line)
        return FilePlace(self.names[self._files[line - 1]], self._lines[line - 1])
