"""Reads what a check says of the edits that it carries."""

import os
import re

from . import kit
from .functions import outermost
from .goals import goes_with, kind_of, told_in


class Verdicts:
    def __init__(self, sources, paths):
        self.sources, self.paths = sources, paths
        # Whether the search is asked anew where only answers of an old proof are against an edit.
        self.is_thorough = True

    def owner(self, path, line):
        """Returns the function that a place in src/ or proofs/ belongs to."""
        if path.startswith("src/"):
            near = self.sources.functions_in(path) if os.path.isfile(f"{self.sources.folder}/{path}") else []
            near = [*near, *(it for it in self.sources.copies if it.file == path)]
            return next((self.paths.printed(it) for it in near if it.lines[0] <= line <= it.lines[1]), None)
        folder = os.path.dirname(path)[len("proofs/") :]
        return outermost("::".join([self.sources.crate.name, *folder.split("/")])) if folder else None

    def told(self, said):
        """Returns by function what a check told of its goals, the surest first."""
        return told_in(said, self.owner, outermost)

    def told_of_edited(self, said, batch):
        """Returns the same, where that of any function of a cycle is of the one that the batch edits, since a cycle has
        one proof."""
        by_cycle = {it.cycle: self.paths.printed(it) for edit in batch for it in edit.functions if it.cycle}
        own = {self.paths.printed(it): it.cycle for it in self.sources.all_functions() if it.cycle}
        found = {}
        for path, told in self.told(said).items():
            found.setdefault(by_cycle.get(own.get(path, path), path), []).extend(told)
        return found

    def facts_of(self, functions, told):
        """Returns what was told of the goals of these functions."""
        return [fact for it in functions for fact in told.get(self.paths.printed(it), ())]

    def is_told(self, edit, facts, is_alone=False):
        """Returns whether this shows that a contract refuses the edit: the search doesn't prove a goal of it, of a
        clause that it names, if it names some. That the function's own answer for a goal of that clause is none any
        more is enough where the search was asked before."""
        goes = lambda goal: not edit.breaks or any(goes_with(clause, goal) for clause in edit.breaks)
        held = [it for it in facts if kind_of(it.goal) and goes(it.goal)]
        is_of_answers = edit.breaks and (is_alone or not self.is_thorough)
        return any(it.how in ("false", "search", "limit") or it.how == "answer" and is_of_answers for it in held)

    def rejected(self, batch, said, aims):
        """Returns the edits at which the check stopped before the prover read anything."""
        rows = [it for it in (kit.PLACED_ROW.match(row) for row in said.split("\n") if "error" in row) if it]
        places = {(it[1], int(it[2])) for it in rows}
        places |= {(path, int(line)) for path, line, _ in kit.FRONT_END_PLACE.findall(said)}
        is_inside = lambda it, path, line: path == it.file and it.lines[0] <= line <= it.lines[1]
        return [edit for edit in batch if any(is_inside(it, *place) for place in places for it in aims[edit])]

    def strays(self, batch, said, told, edited):
        """Returns the functions that aren't edited and are refused, so that what the check says of the others says
        little."""
        is_sound = lambda what: kit.NO_FAULT.match(what) or self.rests_on(what, edited)
        known = dict(kit.FUNCTION_ROW.findall(said))
        found = {it for it, facts in told.items() if it not in edited and facts[0].how != "names"}
        found |= {it for it, what in known.items() if outermost(it) not in edited and not is_sound(what)}
        return [it for it in sorted(found) if not self.is_in_edited_cycle(it, batch)]

    def rests_on(self, what, edited):
        """Returns whether what a check says of a function is only that it rests on what is refused of these."""
        rests, crate = kit.STANDS_ON_REFUSED.match(what), f"Rattle.{self.sources.crate.name}."
        places = tuple(f"Rattle.{it.replace('::', '.')}.".replace(crate, f"{crate}proofs.", 1) for it in edited)
        return bool(rests) and all(it.startswith(places) for it in re.findall(r"`([^`]+)`", rests[1]))

    def is_in_edited_cycle(self, path, batch):
        cycles = {it.cycle for edit in batch for it in edit.functions if it.cycle}
        in_cycles = [it for it in self.sources.all_functions() if it.cycle and it.cycle in cycles]
        return any(self.paths.printed(it) == outermost(path) for it in in_cycles)


def is_proved(what):
    """Returns whether this, which a check says of a function, tells that all its goals are proved."""
    return bool(kit.ALL_GOALS_SHOWN.match(what))
