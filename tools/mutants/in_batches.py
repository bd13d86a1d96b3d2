"""Tries many edits in one check, each at its own function, with another function that isn't edited and has to be
proved."""

from . import kit
from .goals import goals_told, kind_of
from .verdicts import is_proved


class BatchTrials:
    def __init__(self, bench):
        self.bench, self.verdicts, self.printed = bench, bench.verdicts, bench.paths.printed

    def run(self, batches, later):
        """Tries these batches, and then what needs whole counts and what they don't tell. Returns the edits that are to
        be tried alone."""
        alone = []
        while batches or later:
            if not batches:
                batches, later = self.bench.batches.apart(later), []
            batch = batches.pop(0)
            left = self.try_batch(batch)
            later, alone = (later + left, alone) if len(left) < len(batch) else (later, alone + left)
        if self.bench.weak:
            self.try_without_answers()
        return alone

    def try_batch(self, batch):
        """Returns the edits of the batch that are still to be tried."""
        bench = self.bench
        bench.batch_count += 1
        aims = bench.copies.aims_of(batch)
        functions = [it for edit in batch for it in aims[edit]]
        control = bench.draw_control(functions)
        proved = [*functions, *control]
        ran = bench.check(bench.rooms.edited(batch, proved, aims), proved, functions)
        bench.keep_said(ran.stdout)
        if ran.returncode != 1 or not kit.LAST_ROW.search(ran.stdout):
            return self.without_rejected(batch, ran.stdout, aims)
        found, known = self.verdicts.told_of_edited(ran.stdout, batch), dict(kit.FUNCTION_ROW.findall(ran.stdout))
        edited = {self.printed(it): edit for edit in batch for it in aims[edit]}
        strays = self.verdicts.strays(batch, ran.stdout, found, edited)
        strays = strays or self.count_control(batch, aims, control, known)
        if strays:
            why = found[strays[0]][0].row if strays[0] in found else known.get(strays[0])
            return self.halved(batch, strays[0], why)
        of_edit = lambda edit: [fact for path, its in edited.items() if its is edit for fact in found.get(path, ())]
        facts = {edit: of_edit(edit) for edit in batch}
        told = [it for it in batch if self.verdicts.is_told(it, facts[it])]
        bench.weak.update({edit: facts[edit] for edit in batch if facts[edit] and edit not in told})
        bench.take(told, facts)
        return [it for it in batch if it not in told and it not in bench.weak]

    def without_rejected(self, batch, said, aims):
        """Tries the batch without the edits at which the check stopped, where it says which. Returns the edits that are
        still to be tried."""
        bad = self.verdicts.rejected(batch, said, aims)
        left = [it for it in batch if it not in bad]
        return bad + self.try_batch(left) if bad and left else batch

    def halved(self, batch, stray, why):
        """Tries each half of a batch in which a function is refused that isn't edited."""
        self.bench.say(
            f"{self.bench.crate.name}: {stray} wasn't edited and is refused in a batch, which is halved: {why[:200]}"
        )
        half = len(batch) // 2
        return self.try_batch(batch[:half]) + self.try_batch(batch[half:]) if half else batch

    def count_control(self, batch, aims, control, known):
        """Counts the control of a batch. Where what was drawn shows nothing, since it calls what isn't proved, another
        one is drawn, twice at most. Returns the names of what was drawn so and isn't proved as it stands."""
        bench = self.bench
        shows = lambda it: is_proved(known.get(self.printed(it), ""))
        tried = list(control)
        while control and not any(shows(it) for it in control) and len(tried) < 3:
            control = bench.draw_control([*(it for edit in batch for it in aims[edit]), *tried])
            tried += control
            if control:
                ran = bench.check(bench.rooms.edited(batch, control, aims), control)
                known.update(kit.FUNCTION_ROW.findall(ran.stdout))
        if not any(shows(it) for it in control):
            nothing = "".join(f", {self.printed(it)} shows nothing" for it in tried)
            bench.say(f"{bench.crate.name}: a batch of {len(batch)} edits has no control{nothing}")
        bench.control_count += sum(shows(it) for it in control)
        return [self.printed(it) for it in tried if not kit.NO_FAULT.match(known.get(self.printed(it), "no holes"))]

    # ---- edits that only an old proof is against

    def try_without_answers(self):
        """Tries each edit that only answers of its function's own proof are against with these taken out, so that the
        search is asked. It is refused where there are values at which a goal is false, or where a goal isn't proved
        that goes with the clause that the edit names. In the gate, where tools/halves has a crate as it is, that has been
        done, and is left out."""
        bench = self.bench
        edits = [it for it in bench.edits if it in bench.weak]
        for batch in bench.batches.apart(edits):
            aims = bench.copies.aims_of(batch)
            bench.batch_count += 1
            functions = [it for edit in batch for it in aims[edit]]
            without = {it: self.answers_against(edit) for edit in batch for it in aims[edit]}
            # (with the answer that keeps proofs from being offered none of them would be told to be proved)
            ran = bench.check(bench.rooms.edited(batch, functions, aims), functions, (), without)
            bench.keep_said(ran.stdout)
            found = self.verdicts.told_of_edited(ran.stdout, batch)
            for edit in batch:
                facts = [it for it in self.verdicts.facts_of(aims[edit], found) if kind_of(it.goal)]
                self.tell_without_answers(edit, aims[edit], facts, ran.stdout)

    def answers_against(self, edit):
        """Returns the goals for which the function's own answers are against the edit."""
        return {it.goal for it in self.bench.weak[edit] if it.how in ("answer", "names")}

    def tell_without_answers(self, edit, functions, facts, said):
        """Tells what became of an edit where these answers were taken out."""
        bench, known = self.bench, dict(kit.FUNCTION_ROW.findall(said))
        was, out = goals_told(bench.weak[edit]), ", ".join(sorted(self.answers_against(edit)))
        held = [it for it in facts if it.how == "false" or edit.breaks and it.how != "answer"]
        all_proved = all(is_proved(known.get(self.printed(it), "")) for it in functions)
        if self.verdicts.is_told(edit, held):
            bench.take([edit], {edit: facts})
        elif kit.LAST_ROW.search(said) and not facts and all_proved:
            why = f"proved without the answers {out} of its function's old proof, and with them refused at {was}"
            bench.fail(edit.name, f"LET THROUGH: {why}")
        elif edit.breaks:
            why = f"refused at {was}, and without the answers {out} at {goals_told(facts)}"
            bench.fail(edit.name, f"NOT REFUSED BY '{edit.breaks[0]}': {why}")
        else:
            why = f"at {was}. Name the clause that it breaks by a line 'breaks: ..' (CONTRIBUTING.md)"
            bench.fail(edit.name, f"REFUSED BY AN OLD PROOF ALONE: {why}")
