"""Decides how many checks run side by side, and which crate's turn it is by how far the proofs have come beside them."""

import os
import re
import threading
import time
from concurrent.futures import ThreadPoolExecutor

from . import kit

# How much memory one check is reckoned to take here, and how much in `rt ci`.
EACH = 2_000_000_000
OF_PROOFS = 3_500_000_000


def lanes(each):
    """Returns how many checks may run side by side that take so much memory each, by processors and free memory."""
    return max(1, min(kit.processors(), int(0.85 * kit.free()) // each))


class Proofs:
    """How far `rt ci` has come, by what it has printed to a file so far. With no file it has ended, and what it proves
    is there."""

    def __init__(self, path):
        self.path, self.ended, self.proved = path, path is None, set()

    def look(self):
        """Reads the file, and returns whether they have ended."""
        if not self.ended:
            with open(self.path, encoding="utf-8", errors="replace") as file:
                said = file.read()
            self.proved = set(kit.PROVED_CRATE.findall(said))
            self.ended = bool(re.search(r"^== ended$", said, re.M))
        return self.ended

    def stand_below(self, crate):
        return self.path is None or all(it.name in self.proved for it in crate.below())


class Lanes:
    """Lets as many checks run side by side as processors and memory allow: beside the proofs, while they go on, and
    after them."""

    def __init__(self, proofs):
        self.proofs, self.running, self.turn, self.after = proofs, {}, threading.Condition(), lanes(EACH)
        beside = (int(0.85 * kit.free()) - int(os.environ.get("RT_JOBS", 1)) * OF_PROOFS) // EACH
        self.beside = max(0, min(kit.processors(), beside))

    def __enter__(self):
        """Waits for a turn, and returns the processor that the check is to run on: one that no other check of a wrong
        body has. Commands side by side know nothing of each other, so each begins with another processor."""
        with self.turn:
            while len(self.running) >= (self.after if self.proofs.look() else self.beside):
                self.turn.wait(2)
            mine = os.sched_getaffinity(0)
            free = mine.difference(self.running.values())
            self.running[threading.get_ident()] = min(free, key=lambda it: (it - os.getpid()) % len(mine), default=-1)
            return self.running[threading.get_ident()]

    def __exit__(self, *_):
        with self.turn:
            del self.running[threading.get_ident()]
            self.turn.notify()


class Turns:
    """Gives out trials, each once the crates below its own are proved, the largest first."""

    def __init__(self, trials, proofs):
        self.left = sorted(trials, key=lambda it: -it.crate.count(rb"\n"))
        self.proofs, self.turn = proofs, threading.Lock()

    def take(self):
        """Returns a trial and whether its turn has come, or none where one has to wait. Where the proofs have ended
        without what its crate stands on, each of its edits has failed."""
        with self.turn:
            self.proofs.look()
            trial = next((it for it in self.left if self.proofs.stand_below(it.crate)), None)
            if trial is None and self.proofs.ended and self.left:
                for name in [it.name for it in self.left[0].edits] or [""]:
                    self.left[0].fail(name, "NOT TRIED: what its crate stands on isn't proved")
                return self.left.pop(0), False
            if trial:
                self.left.remove(trial)
            return trial, bool(trial)


def take_turns(trials, proofs, work):
    """Does the work on each trial in its turn, as many at once as there are processors."""
    turns = Turns(trials, proofs)

    def go_on():
        while turns.left:
            trial, is_ready = turns.take()
            if is_ready:
                work(trial)
            elif trial is None:
                time.sleep(2)

    with ThreadPoolExecutor(kit.processors()) as pool:
        for it in [pool.submit(go_on) for _ in range(kit.processors())]:
            it.result()
