"""Tries all edits of a crate, or proves what they edit with half counts."""

import time

from . import kit
from .alone import LoneTrials
from .bench import Bench
from .edits import read_edits
from .half_counts import NEED_WHOLE
from .in_batches import BatchTrials
from .of_laws import LawTrials


class CrateTrial:
    """The wrong bodies of one crate, and what became of them. What can't stand for an edit has failed from the
    start."""

    def __init__(self, crate, kinds, say, seed, lanes):
        self.crate = crate
        self.edits, faults = read_edits(crate.folder, kinds)
        self.bench = Bench(crate, self.edits, say, seed, lanes)
        self.misnamed, self.took, self.alone_count = len(faults), 0.0, 0
        for name, why in faults:
            self.fail(name, f"BAD EDIT: {why}")

    def fail(self, name, why):
        self.bench.fail(name, why)

    @property
    def passed(self):
        return self.bench.passed

    @property
    def failed(self):
        return self.bench.failed

    def choose(self, names):
        """Leaves only the edits of these names, where there are any."""
        self.edits[:] = [it for it in self.edits if not names or it.name in names]

    def run(self, drawn):
        """Tries all edits: in batches, laws beside each other, the others alone, and those that are drawn once more."""
        start, bench = time.time(), self.bench
        bench.sources.read()
        batches, later, elsewhere = bench.plan()
        alone = elsewhere + BatchTrials(bench).run(batches, later)
        bench.sources.copies = []
        of_laws = LawTrials(bench).run([it for it in alone if it.is_elsewhere])
        alone = [it for it in alone if it not in of_laws]
        self.alone_count = len(alone)
        lone = LoneTrials(bench)
        lone.run(alone)
        told = [*bench.batched, *of_laws]
        lone.run_drawn([it for it in told if f"{self.crate.name}/{it.name}" in drawn])
        self.took = time.time() - start
        how = f"in {bench.batch_count} batches with {bench.control_count} controls and {self.alone_count} alone"
        bench.say(f"{self.crate.name}: {self.passed} of {len(self.edits)} refused, {how}, {self.took:.0f} s")

    def prove_halves(self):
        """Proves the functions that wrong bodies edit, and the copies of them, as they stand, with half counts, and
        tells those that aren't."""
        start, bench = time.time(), self.bench
        bench.sources.read()
        wanted = self.functions_and_copies()
        said = self.check_as_they_stand(wanted)
        told = {it: facts for it, facts in bench.verdicts.told(said).items() if facts[0].how != "names"}
        printed = [bench.paths.printed(it) for it in wanted]
        wrong = {it for it in printed if it in told}
        wrong |= {it for it, what in kit.FUNCTION_ROW.findall(said) if not kit.NO_FAULT.match(what)}
        is_ended = not wanted or kit.LAST_ROW.search(said)
        for it in sorted(wrong) or ([] if is_ended else ["(its check)"]):
            self.fail(it, f"NOT PROVED with half counts: {(told[it][0].row if it in told else said[-300:])[:200]}")
        bench.passed, self.took = len(wanted) - len(wrong), time.time() - start
        how = f"{self.passed} of {len(wanted)} edited functions and copies of them proved with half counts"
        bench.say(f"{self.crate.name}: {how}, {self.took:.0f} s")

    def functions_and_copies(self):
        """Returns the functions that the edits change, and the copies that their batches make of them; these stay those
        of the sources."""
        bench, copies = self.bench, []
        is_whole = lambda it: bench.paths.printed(it) in NEED_WHOLE
        batches, _, _ = bench.plan()
        for batch in batches:
            bench.copies.aims_of(batch)
            copies += [it for it in bench.sources.copies if not is_whole(it.of)]
        bench.sources.copies = list({it.path: it for it in copies}.values())
        return {it for edit in self.edits for it in edit.functions if not is_whole(it)} | set(bench.sources.copies)

    def check_as_they_stand(self, wanted):
        """Returns what a check says of these functions, some of them copies."""
        bench, copies = self.bench, self.bench.sources.copies
        texts = bench.rooms.edited([], wanted.difference(copies))
        bench.copies.add_to(texts, [(it, []) for it in copies])
        return bench.check(texts, sorted(wanted, key=lambda it: it.path)).stdout if wanted else ""
