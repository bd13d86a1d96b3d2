"""Runs a program where something is refused to it, and tells how it ended: one call of a kind fails (refusing.c), or
its memory or its files may grow no further. For tests/refused_calls, tests/refused_allocations, tests/refused_memory and
tests/test_*.py."""

import collections
import os
import re
import subprocess

HERE = os.path.dirname(os.path.realpath(__file__))
# What refusing.c writes as a call fails.
MARK = b"[refused]"

# A run: its status (None where it had not ended in time, and below 0 for a signal), what it wrote, its complaint
# without the mark, and whether a call was refused to it.
Ran = collections.namedtuple("Ran", "status text complaint was_refused")


def run(words, seconds=60, bounds="", **how):
    """Runs a command. 'bounds' are words of bash before it, as `ulimit -v 1000`."""
    words = ["bash", "-c", f'{bounds} && exec "$@"', "bounded", *words] if bounds else words
    how = {"stdin": subprocess.DEVNULL, "stdout": subprocess.PIPE, "stderr": subprocess.PIPE, **how}
    try:
        ran = subprocess.run(words, timeout=seconds, check=False, **how)
    except subprocess.TimeoutExpired:
        return Ran(None, b"", f"had not ended after {seconds} seconds", True)
    said = ran.stderr or b""
    return Ran(ran.returncode, ran.stdout or b"", said.replace(MARK, b"").decode(errors="replace"), MARK in said)


class Refusing:
    """refusing.c, compiled into this folder by $CC or cc, which stands before the C library: of one kind of call the
    Nth fails, and a read or a write moves so many bytes at most, where 'piece' isn't 0."""

    def __init__(self, room, piece=0):
        self.made, self.piece = f"{room}/refusing.so", piece
        compiler = os.environ.get("CC", "cc")
        subprocess.run([compiler, "-O2", "-shared", "-fPIC", "-o", self.made, f"{HERE}/refusing.c"], check=True)

    def run(self, words, kind, number, seconds=60, **how):
        """Runs a command whose call of that kind and number fails."""
        env = {"PATH": "/usr/bin:/bin", "LD_PRELOAD": self.made, "REFUSED_KIND": kind, "REFUSED_NUMBER": str(number)}
        env |= {"REFUSED_PIECE": str(self.piece)} if self.piece else {}
        return run(words, seconds, env=env, **how)


class Whole:
    """How a run ended to which nothing was refused. Others are held to it."""

    def __init__(self, ran):
        self.status, self.text = ran.status, ran.text

    def ending(self, ran, complaint):
        """Returns how another run ended: 'well' if as this one, 'bare' or 'part' if with status 2 and a complaint that
        matches, before any output or after a beginning of it, and else 'wrong'."""
        if ran.status == self.status and ran.text == self.text and not ran.complaint:
            return "well"
        if ran.status == 2 and self.text.startswith(ran.text) and re.fullmatch(complaint, ran.complaint):
            return "part" if ran.text else "bare"
        return "wrong"


def why(ran):
    """Says how a run ended that shouldn't have ended so."""
    if ran.status is None:
        return ran.complaint
    return f"ended with {ran.status}, {len(ran.text)} bytes: {ran.complaint.strip()}"


def count_of(is_refused):
    """Returns how many calls a run makes, nearly: a refusal of any later one isn't met."""
    low, high = 0, 1
    while is_refused(high):
        low, high = high, 2 * high
    while high - low > 1:
        middle = (low + high) // 2
        low, high = (middle, high) if is_refused(middle) else (low, middle)
    return low
