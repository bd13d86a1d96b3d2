"""The lives of a client: which blocks of ids were taken, so that a client that was killed never hands out an id or a value again.

A client may be killed after its database has committed, and before the transaction's line is written. Then its log doesn't tell which
ids and values are in use. So each opening of a log takes a block of ids that no opening before it can have used: how many were taken
stands in a file beside the log, and is written and synced before the first id of a block is handed out.
"""
import errno
import fcntl
import os
import re
import weakref
from typing import Any, Tuple

from .faults import LogError
from .numbering import IDS

BLOCK = 1_000
MOST_BLOCKS = IDS // BLOCK
NUMBER = re.compile(rb"[0-9]{1,4}\n")

_here: Any = weakref.WeakSet()  # the lives of this process


def _forget() -> None:
    """A child that was forked holds no lock: its parent's log may be opened again once the parent is gone."""
    for life in list(_here):
        life.end()


os.register_at_fork(after_in_child=_forget)


def _close(held: Any) -> None:
    """Closes the file whose descriptor is held, which unlocks it."""
    while held:
        os.close(held.pop())


class Life:
    """One opening of a client's log. Its file is locked until the end, so that no other process has the same log open."""

    def __init__(self, log: str, client: int) -> None:
        self._log, self._client = log, client
        self.path = f"{os.path.realpath(log)}.life-{client}"
        self._held = [self._locked()]
        self._finalizer = weakref.finalize(self, _close, self._held)
        self._finalizer.atexit = False
        _here.add(self)
        self.taken = self._number()
        """How many blocks were taken, by this opening and those before it; 0 where none is known of."""

    def take(self) -> int:
        """Takes the next block, and returns its number, from 0."""
        if self.taken >= MOST_BLOCKS:
            raise LogError(f"client {self._client} has no ids left: each opening of {self._log} takes {BLOCK:,} of them, as do "
                           f"{BLOCK:,} transactions, and {MOST_BLOCKS:,} times that is all: go on with another client number and file")
        try:
            self._write(self.taken + 1)
        except OSError as fault:
            raise self._fault(fault) from fault
        self.taken += 1
        return self.taken - 1

    def end(self) -> None:
        _close(self._held)

    def _fault(self, fault: OSError) -> LogError:
        return LogError(f"cannot keep in {self.path} which ids are taken, without which two lives of client {self._client} "
                        f"might hand out the same: {fault.strerror}")

    def _locked(self) -> int:
        """The file, open and locked. It may have been replaced between the opening and the locking: then it is opened again."""
        while True:
            file = -1
            try:
                file = os.open(self.path, os.O_RDWR | os.O_CREAT | os.O_CLOEXEC, 0o666)
                fcntl.flock(file, fcntl.LOCK_EX | fcntl.LOCK_NB)
                if os.path.samestat(os.fstat(file), os.stat(self.path)):
                    return file
            except FileNotFoundError as fault:
                if file < 0:
                    raise self._fault(fault) from fault
            except BlockingIOError:
                os.close(file)
                raise LogError(f"another process has {self._log} open for client {self._client}: two at once would give the same "
                               "ids, so let each have a number of its own") from None
            except OSError as fault:
                if file >= 0:
                    os.close(file)
                raise self._fault(fault) from fault
            os.close(file)

    def _number(self) -> int:
        text = os.pread(self._held[0], 100, 0)
        if text and (not NUMBER.fullmatch(text) or int(text) > MOST_BLOCKS):
            raise LogError(f"{self.path} doesn't say how many blocks of ids were taken: name another client number and file")
        return int(text or b"0")

    def _write(self, number: int) -> None:
        """Puts the number in the place of the one before, so that after any failure one of the two stands there."""
        new = f"{self.path}.new"
        file = os.open(new, os.O_WRONLY | os.O_CREAT | os.O_TRUNC | os.O_CLOEXEC, 0o666)
        try:
            fcntl.flock(file, fcntl.LOCK_EX | fcntl.LOCK_NB)
            text = b"%d\n" % number
            if os.write(file, text) < len(text):
                raise OSError(errno.ENOSPC, os.strerror(errno.ENOSPC))
            os.fsync(file)
            os.rename(new, self.path)
        except OSError:
            os.close(file)
            _remove(new)
            raise
        self._held.append(file)
        os.close(self._held.pop(0))
        _sync_folder(os.path.dirname(self.path))


def _remove(path: str) -> None:
    try:
        os.unlink(path)
    except OSError:
        pass


def _sync_folder(path: str) -> None:
    folder = os.open(path, os.O_RDONLY | os.O_DIRECTORY | os.O_CLOEXEC)
    try:
        os.fsync(folder)
    finally:
        os.close(folder)


def counts_of(block: int) -> Tuple[int, int]:
    """The first and the last count of a block. Counts are from 1, so the first block has one less."""
    return max(1, block * BLOCK), (block + 1) * BLOCK - 1
