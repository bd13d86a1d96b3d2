"""Holds all that the trials of one crate share, and what became of its edits."""

import os
import random
import re
import tempfile

from . import kit
from .batches import Batches
from .copies import Copies
from .goals import goals_told
from .half_counts import NEED_WHOLE
from .paths import PrintedPaths
from .placing import Placing
from .rooms import Rooms
from .sources import Sources
from .verdicts import Verdicts


class Bench:
    """A crate with its edits, what is known of both, and how many edits were refused, with the names of those that
    weren't. 'say' prints a line, and 'lanes' holds back a check until there is room for it."""

    def __init__(self, crate, edits, say, seed, lanes):
        self.crate, self.edits, self.say, self.lanes = crate, edits, say, lanes
        self.random = random.Random(f"{seed} {crate.name}")
        self.sources = Sources(crate)
        self.paths = PrintedPaths(self.sources)
        self.copies = Copies(self.sources, self.paths)
        self.placing = Placing(self.sources, self.paths)
        self.batches = Batches(self.paths, self.copies)
        self.rooms = Rooms(self.sources, self.paths, self.copies)
        self.verdicts = Verdicts(self.sources, self.paths)
        # How many edits are refused, which aren't, and how many checks told so.
        self.passed, self.failed, self.batch_count, self.control_count, self.kept_count = 0, [], 0, 0, 0
        # The edits that were refused in batches, and what is told of those that only an old proof is against, so far.
        self.batched, self.weak = [], {}

    def fail(self, name, why):
        self.failed.append(f"{self.crate.name}/{name}")
        self.say(f"{self.crate.name}/{name}: {why}")

    def take(self, edits, facts):
        """Counts these edits as refused in a batch, and tells at which goals."""
        for edit in edits:
            self.say(f"{self.crate.name}/{edit.name}: refused at {goals_told(facts[edit])}")
        self.passed += len(edits)
        self.batched += edits

    def plan(self):
        """Returns the batches, the edits that need whole counts, and those that stand in no batch. An edit of a header
        is the first one of its function, as it can't stand in a copy."""
        faults, fit = {it: self.placing.place(it) for it in self.edits}, []
        for edit in sorted(self.edits, key=lambda it: not it.is_headed):
            if faults[edit]:
                self.fail(edit.name, f"BAD EDIT: {faults[edit]}")
            else:
                fit.append(edit)
        return self.batches.plan(fit)

    # ---- a check in which only some functions are proved

    def check(self, texts, proved, edited=(), without=None):
        """Checks these functions alone in a copy of the crate with these texts, in which each other function has a hole
        for its proof. For those that are edited no proof is offered. 'without' has functions with the answers of their
        own proofs that are taken out."""
        self.paths.ask_for(proved)
        with tempfile.TemporaryDirectory(prefix="wrong-bodies-") as room:
            self.rooms.fill(room, texts, proved, edited, without or {})
            while True:
                ran = self.run_check(room, proved)
                if ran.returncode != 2 or not self.paths.ask_for_next(ran.stdout):
                    self.paths.learn(ran.stdout)
                    return ran

    def run_check(self, room, proved):
        needs_whole = any(self.paths.printed(it.of or it) in NEED_WHOLE for it in proved)
        with self.lanes as processor:
            return kit.check_room(self.crate, room, self.paths.ask_for(proved), not needs_whole, processor)

    def keep_said(self, said):
        """Keeps what a check said in a file of the folder WRONG_BODIES_KEEP, where that is set."""
        if os.environ.get("WRONG_BODIES_KEEP"):
            self.kept_count += 1
            path = f"{os.environ['WRONG_BODIES_KEEP']}/{self.crate.name}_{self.kept_count}.txt"
            with open(path, "w", encoding="utf-8") as file:
                file.write(said)

    def draw_control(self, edited):
        """Draws a function that the batch doesn't edit and that names none which it edits, best one of another batch,
        and which it proves as it stands: where that fails, so does what a batch says."""
        words = [rf"\b{it.name}\b" for it in {it.of or it for it in edited}]
        names = re.compile("|".join(words) or r"(?!)")
        is_left_out = lambda it: it.cycle or it in self.paths.unnamed or it in edited
        is_free = lambda it: not is_left_out(it) and self.paths.printed(it) not in NEED_WHOLE
        of_others = [it for edit in self.edits for it in edit.functions if is_free(it)]
        others = [it for it in self.sources.all_functions() if is_free(it)]
        apart = lambda near: [it for it in near if not names.search(it.text) and it.text.strip("{} \n")]
        near = apart(of_others) or apart(others)
        return [self.random.choice(near)] if near else []
