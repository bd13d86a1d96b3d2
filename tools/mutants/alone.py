"""Tries one edit by itself: on what it names, with nothing else to prove, or in the whole crate."""

from . import kit
from .goals import faults_of, goals_told


class LoneTrials:
    def __init__(self, bench):
        self.bench, self.verdicts, self.printed = bench, bench.verdicts, bench.paths.printed

    def run(self, edits):
        """Tries each of these edits, and tells what became of it."""
        bench = self.bench
        for edit in edits:
            row = self.try_elsewhere(edit) if edit.is_elsewhere else None
            is_refused, text = (True, row) if row else self.try_whole(edit)
            if is_refused:
                bench.passed += 1
                how = "by itself" if row else "tried alone"
                bench.say(f"{bench.crate.name}/{edit.name}: {how}: {text[:160]}")
            else:
                bench.fail(edit.name, text)

    def run_drawn(self, edits):
        """Tries these edits, which were refused beside others, once more: both verdicts must agree."""
        bench = self.bench
        for edit in edits:
            row = self.try_elsewhere(edit) if edit.is_elsewhere else None
            is_refused, text = (True, row) if row else self.try_drawn(edit)
            bench.say(f"{bench.crate.name}/{edit.name}: drawn, and tried alone: {text[:120]}")
            if not is_refused:
                bench.passed -= 1
                bench.fail(edit.name, "its batch took it for refused, and alone it isn't")

    def try_elsewhere(self, edit):
        """Returns the line that shows that a law, or a function that the edit names, refuses an edit that changes no
        body alone."""
        bench = self.bench
        proved = self.functions_to_refuse(edit)
        if not proved:
            return None
        ran = bench.check({**bench.rooms.edited([], proved), **edit.texts}, proved)
        bench.keep_said(ran.stdout)
        if ran.returncode != 1 or not kit.LAST_ROW.search(ran.stdout):
            return None
        if any(kit.unread(row, edit.texts) for row in ran.stdout.split("\n")):
            return None
        known, found = dict(kit.FUNCTION_ROW.findall(ran.stdout)), self.verdicts.told(ran.stdout)
        paths, rows = [self.printed(it) for it in proved], faults_of(ran.stdout)
        if not rows or not any(it in known and not kit.NO_FAULT.match(known[it]) for it in paths):
            return None
        facts = self.verdicts.facts_of(proved, found)
        if edit.functions and facts and not self.verdicts.is_told(edit, facts, is_alone=True):
            return None
        return f"at {goals_told(facts)}" if facts else rows[0]

    def functions_to_refuse(self, edit):
        """Returns the functions of which one has to refuse the edit: what it names and what it edits, or the laws."""
        wanted = edit.tried_at or ([] if edit.functions else [f"{self.bench.crate.name}::laws"])
        is_of = lambda path, name: f"{path}::".startswith(f"{name}::") or path.endswith(f"::{name}")
        is_wanted = lambda path: any(is_of(path, name) for name in wanted)
        proved = [it for it in self.bench.sources.all_functions() if is_wanted(self.printed(it))]
        return proved + [it for it in edit.functions if it not in proved]

    def try_whole(self, edit):
        """Returns whether the whole crate refuses the edit, and what was said of it. That a prover gave up is no
        refusal, nor that names are gone which a proof needs."""
        with self.bench.lanes:
            came_to, text, said = kit.try_edit(self.bench.crate, edit)
        if came_to != "refused":
            return False, "GAVE UP: the prover came to a limit, which is no refusal" if came_to == "limit" else text
        if said is None:
            return kit.ONLY_NAMES_GONE not in text, text
        rows = faults_of(said)
        if not rows:
            return False, f"REFUSED ONLY SINCE A PROOF NAMES WHAT IT TOOK AWAY: {text[:160]}"
        facts = self.verdicts.facts_of(edit.functions, self.verdicts.told_of_edited(said, [edit]))
        if edit.functions and not edit.is_elsewhere and not self.verdicts.is_told(edit, facts, is_alone=True):
            why = "REFUSED BY AN OLD PROOF ALONE, or not by the clause that it names"
            return False, f"{why}: at {goals_told(facts)}"
        return True, f"refused: at {goals_told(facts)}" if facts else f"refused: {rows[0]}"

    def try_drawn(self, edit):
        """Returns whether the edit is refused where nothing is left out and it stands alone: at a function that it
        changes, of which a check reads no more than it and what it calls, or else in the whole crate."""
        bench = self.bench
        bench.sources.copies = []
        texts, _ = kit.read_edit(edit, bench.sources.folder)
        with bench.lanes:
            ran = kit.check_crate(bench.crate, texts, [self.printed(it) for it in edit.functions])
        told = self.verdicts.told_of_edited(ran.stdout, [edit]) if ran.returncode == 1 else {}
        facts = self.verdicts.facts_of(edit.functions, told)
        is_told = self.verdicts.is_told(edit, facts, is_alone=True)
        return (True, f"refused: at {goals_told(facts)}") if is_told else self.try_whole(edit)
