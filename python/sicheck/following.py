"""The lines of a log for the checker's standard input: of files one after the other, of files that grow, or from the caller."""
import json
import os
import subprocess
import threading
from typing import IO, Any, Callable, Iterable, Iterator, List, Optional, Tuple, Union

from .faults import CheckFailed
from .places import FedLines

Until = Union["subprocess.Popen[Any]", Callable[[], bool], Any]
Line = Union[str, bytes, dict]
ONE_READ = 1 << 20
REMEMBERED = 4_096  # so many of the last bytes that were read are looked at again before more is read


def is_over(until: Any) -> Callable[[], bool]:
    """Whether the test has ended: asked of a process, of an event, or of a function. A thread that hasn't begun has not."""
    if hasattr(until, "poll"):
        return lambda: until.poll() is not None
    if hasattr(until, "is_set"):
        return lambda: bool(until.is_set())
    if hasattr(until, "is_alive"):
        return lambda: until.ident is not None and not until.is_alive()
    if callable(until):
        return lambda: bool(until())
    raise TypeError(f"until is a process, a thread, an event or a function, and not {until!r}")


def lines_of_caller(lines: Iterable[Line]) -> Iterator[bytes]:
    """Lines as texts, bytes or objects, each with its line feed."""
    for line in lines:
        if isinstance(line, dict):
            line = json.dumps(line, ensure_ascii=False, separators=(",", ":"))
        data = line.encode("utf-8") if isinstance(line, str) else line
        yield data if data.endswith(b"\n") else data + b"\n"


def opened(name: str) -> IO[bytes]:
    """A file of the log; one that can't be read is a fault of the check."""
    try:
        return open(name, "rb")
    except OSError as fault:
        raise CheckFailed(f"cannot read {name}: {fault.strerror}") from None


def lines_of_files(files: FedLines) -> Iterator[bytes]:
    """The lines of the files, one file after the other."""
    for place, name in enumerate(files.names):
        with opened(name) as file:
            for line in file:
                files.hand_over(place)
                yield line if line.endswith(b"\n") else line + b"\n"


class _Growing:
    """A file that grows, or isn't there yet: its lines, each once it is whole."""

    def __init__(self, name: str) -> None:
        self._name = name
        self._file: Optional[IO[bytes]] = None
        self._rest = b""
        self._last = b""  # what was read last
        self.has_grown = False
        """Whether the last call found anything."""

    def lines(self) -> List[bytes]:
        """The lines that came since the last call."""
        self.has_grown = False
        if self._file is None:
            if not os.path.exists(self._name):
                return []
            self._file = opened(self._name)
        self._check_is_as_read(self._file)
        more = self._file.read(ONE_READ)
        self._last = (self._last + more)[-REMEMBERED:]
        self.has_grown = bool(more)
        data = self._rest + more
        end = data.rfind(b"\n") + 1
        self._rest = data[end:]
        return [line + b"\n" for line in data[:end].split(b"\n")[:-1]]

    def _check_is_as_read(self, file: IO[bytes]) -> None:
        """A file that was put in the place of this one, or was written from its beginning again, would be read by nobody."""
        last = self._last
        try:
            is_same = os.path.samestat(os.stat(self._name), os.fstat(file.fileno()))
        except OSError:
            is_same = False
        if not is_same or os.pread(file.fileno(), len(last), file.tell() - len(last)) != last:
            raise CheckFailed(f"{self._name} was replaced, removed or cut off while it was followed: it has to grow alone")

    def close(self) -> List[bytes]:
        """Ends the reading; the last line may lack its end. A file that never came is a fault: its client may have logged elsewhere."""
        if self._file is None:
            self._file = opened(self._name)
        self.end()
        return [self._rest + b"\n"] if self._rest else []

    def end(self) -> None:
        if self._file is not None:
            self._file.close()


def lines_of_growing_files(files: FedLines, over: Callable[[], bool], pause: float, stop: threading.Event) -> Iterator[bytes]:
    """The lines of files that grow, each file's in its order, until the test is over and all that it wrote is read, or nobody wants
    more."""
    growing = [_Growing(name) for name in files.names]
    try:
        for place, line in _lines_while_they_grow(growing, over, pause, stop):
            files.hand_over(place)
            yield line
    finally:
        for one in growing:
            one.end()


def _lines_while_they_grow(growing: List[_Growing], over: Callable[[], bool], pause: float,
                           stop: threading.Event) -> Iterator[Tuple[int, bytes]]:
    """The same, each line with the place of its file."""
    is_last = False
    while not stop.is_set():
        came = False
        for place, one in enumerate(growing):
            yield from ((place, line) for line in one.lines())
            came = came or one.has_grown
        if not came and is_last:
            break
        if not came:
            is_last = over()
            if not is_last:
                stop.wait(pause)
    for place, one in enumerate(growing if is_last else ()):
        yield from ((place, line) for line in one.close())
