"""What the program says on standard error: its lines of progress go on to a terminal, and the rest is kept."""
import os
import re
import sys
import tempfile
import threading
from typing import Any, Optional

ERASURE = b"\r\x1b[K"  # what each line of progress begins with, and what the last of them ends with
PROGRESS = re.compile(rb"sicheck: (waiting for|[0-9]+ lines)[^\n]*")
ONE_READ = 65_536


class Said:
    """What the program says. `to` is what it is given for its standard error; with `shows` its lines of progress appear on this process's."""

    def __init__(self, shows: bool) -> None:
        self._file = tempfile.TemporaryFile()
        self._reader: Optional[threading.Thread] = None
        self.to: int = self._file.fileno()
        if shows:
            source, self.to = os.pipe()
            self._reader = threading.Thread(target=self._read, args=(source,), daemon=True)

    def begin(self) -> None:
        """Reads on, once the program has its end of the pipe."""
        if self._reader is not None:
            self._reader.start()
            os.close(self.to)

    def _read(self, source: int) -> None:
        """Shows each line of progress in the place of the one before, and keeps what is none."""
        left, shown = b"", b""
        with open(source, "rb", buffering=0) as said:
            while data := said.read(ONE_READ):
                *done, left = (left + data).split(ERASURE)
                for piece in done:
                    self._keep(piece)
                now = left if PROGRESS.fullmatch(left) else b""
                if now != shown and (done or now):
                    _write(ERASURE + now)
                    shown = now
        self._keep(left)
        if shown:
            _write(ERASURE)

    def _keep(self, piece: bytes) -> None:
        if not PROGRESS.fullmatch(piece):
            self._file.write(piece)
            self._file.flush()

    def text(self) -> str:
        """What was kept, once the program has ended."""
        if self._reader is not None:
            self._reader.join()
        self._file.seek(0)
        return self._file.read().decode("utf-8", "backslashreplace")

    def __enter__(self) -> "Said":
        return self

    def __exit__(self, *_: Any) -> None:
        if self._reader is not None and self._reader.ident is not None:
            self._reader.join(1)
        self._file.close()


def is_watched() -> bool:
    """Whether a person looks at this process's standard error."""
    try:
        return sys.stderr.isatty()
    except (AttributeError, ValueError):  # there is none, or it is closed
        return False


def _write(data: bytes) -> None:
    try:
        os.write(sys.stderr.fileno(), data)
    except (OSError, ValueError, AttributeError):
        pass  # nobody looks any more
