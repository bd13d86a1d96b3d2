"""Calls on a log, one at a time, each made whole.

Python runs the handlers of signals in the main thread alone, between any two of its steps. So an exception of theirs, as that of Ctrl-C,
may fall within a long line, or between the writing of a line and the log's knowing of it. It never falls into a call that is made in
another thread: the main thread lets a helper make its calls, waits, and raises the interruption afterwards.
"""
import _thread
import queue
import threading
import time
from typing import Any, Callable, Optional

from .faults import LogError

PATIENCE = 5.0  # seconds for which an interruption waits for the call; a second interruption doesn't wait


class StillWriting(LogError):
    """A call before this one isn't over, though its caller was interrupted: nobody reads the pipe that it writes to."""


class _Call:
    """A call that a helper makes, and what came of it."""

    def __init__(self, function: Callable[..., Any], arguments: Any) -> None:
        self._function: Any = function
        self._arguments = arguments
        self._ended = threading.Lock()
        self._ended.acquire()
        self.is_over = False
        self.answer: Any = None
        self.fault: Optional[BaseException] = None

    def make(self) -> None:
        try:
            self.answer = self._function(*self._arguments)
        except BaseException as fault:  # the caller raises it
            self.fault = fault
        self._function = self._arguments = None
        self.is_over = True
        self._ended.release()

    def wait(self, seconds: float) -> None:
        """Waits until the call is over, at most so long. (A lock by itself, since an event may be left locked by an interruption.)"""
        if not self.is_over and self._ended.acquire(timeout=seconds):
            self._ended.release()


def _make_all(calls: Any) -> None:
    """Makes the calls as they come, until there are no more; it holds none of them once it is over."""
    while True:
        call = calls.get()
        if call is None:
            return
        call.make()
        del call


class Turns:
    """The calls on one log. Threads take turns, and no exception of a signal's handler falls into a call."""

    def __init__(self) -> None:
        self._guard = threading.RLock()
        self._calls: Any = None
        self._given_up: Optional[_Call] = None

    def take(self, function: Callable[..., Any], *arguments: Any) -> Any:
        """Makes the call in its turn, and returns what it returns. An interruption is raised once the call is over, or after some
        seconds, or at once where it is the second one; the call is made to its end in any case."""
        if threading.current_thread() is not threading.main_thread():
            return self._made(function, *arguments)
        self._wait_for_the_last()
        if self._calls is None and not self._begin():
            return self._made(function, *arguments)
        call = _Call(self._made, (function, *arguments))
        self._calls.put(call)
        self._given_up = call
        fault = self._waited_for(call)
        if call.is_over:
            self._given_up = None
            fault, call.fault = fault or call.fault, None
        try:
            if fault is not None:
                raise fault
            return call.answer
        finally:
            del fault  # which has this call in its trace, and would keep the log alive

    def end(self) -> None:
        """No more calls come from the main thread: its helper ends."""
        if self._calls is not None:
            self._calls.put(None)
            self._calls = None

    def _made(self, function: Callable[..., Any], *arguments: Any) -> Any:
        with self._guard:
            return function(*arguments)

    def _begin(self) -> bool:
        """Begins the helper. Where the program is about to end there are no new threads."""
        calls: Any = queue.SimpleQueue()
        try:
            _thread.start_new_thread(_make_all, (calls,))  # one of `threading` may be left half begun by an interruption
        except RuntimeError:
            return False
        self._calls = calls
        return True

    def _wait_for_the_last(self) -> None:
        """A call that was given up is made to its end before the next one."""
        last = self._given_up
        if last is None:
            return
        last.wait(PATIENCE)
        if not last.is_over:
            raise StillWriting("the line before isn't written to its end yet: nobody reads the pipe")
        self._given_up = None

    @staticmethod
    def _waited_for(call: _Call) -> Optional[BaseException]:
        """Waits until the call is over. Returns the interruption that came meanwhile."""
        first, until = None, 0.0
        while not call.is_over and (first is None or time.monotonic() < until):
            try:
                call.wait(PATIENCE)
            except BaseException as it:
                if first is not None:
                    raise
                first, until = it, time.monotonic() + PATIENCE
        return first
