"""Tries edits that each turn one statement of specs/ and name one law in one check, where none of the laws rests on a
statement that another edit turns."""

from . import kit
from .statements import Statements, words_of, words_of_clauses, words_of_header
from .verdicts import is_proved


class LawTrials:
    def __init__(self, bench):
        self.bench, self.sources, self.printed = bench, bench.sources, bench.paths.printed

    def run(self, edits):
        """Returns which of these edits are refused beside each other, with what a check says of each one's law."""
        found = self.apart(edits)
        if len(found) <= 1:
            return {}
        self.bench.batch_count += 1
        told = self.try_together(found)
        self.bench.passed += len(told)
        for edit, said in told.items():
            self.bench.say(f"{self.bench.crate.name}/{edit.name}: beside other laws: {said[:160]}")
        return told

    def apart(self, edits):
        """Returns those of the edits that can be tried in one check, each with its law and with the names of what rests
        on the statement of specs/ that it turns: no clause of src/ but its law's has one of them, and no header or
        proof of another law among these."""
        statements, found, words = Statements(self.sources.folder), {}, {}
        for edit in edits:
            law = self.law_of(edit)
            if law is None:
                continue
            ((path, was, _),) = edit.turned
            with open(f"{self.sources.folder}/{path}", encoding="utf-8") as file:
                row = file.read().partition(was)[0].count("\n")
            rests, words[edit] = statements.resting_on(path, row, {law.name}), self.words_of_law(law)
            in_clauses = words_of_clauses(self.sources.by_file, self.sources.texts, law)
            is_near = lambda it: rests & words[it] or found[it][1] & words[edit]
            if not rests & in_clauses and not any(is_near(it) for it in found):
                found[edit] = law, rests
        return found

    def law_of(self, edit):
        """Returns the law that the edit names, where it names one law and turns one statement."""
        is_named = lambda it: any(f"::{self.printed(it)}".endswith(f"::{name}") for name in edit.tried_at)
        laws = [it for it in self.sources.all_functions() if is_named(it)]
        if len(laws) != 1 or len(edit.turned) != 1 or len(edit.texts) != 1 or laws[0].text.strip("{} \n"):
            return None
        return laws[0]

    def words_of_law(self, law):
        """Returns the words of a function's header, with its attributes, and of its own proof."""
        own = tuple(f"{self.sources.folder}/proofs/{place}/" for place in self.bench.paths.proof_folders(law))
        of_proofs = [words_of(text) for path, text in self.sources.proofs().items() if path.startswith(own)]
        return words_of_header(law, self.sources.texts[law.file]).union(*of_proofs)

    def try_together(self, found):
        """Returns which of these edits one check shows to be refused, with what it says of each one's law. A function
        on which none of them bears must be proved in it."""
        bench, texts = self.bench, {}
        laws = {edit: law for edit, (law, _) in found.items()}
        rests = set().union(*(names for _, names in found.values()))
        bears_on = lambda it: (self.words_of_law(it) | words_of(it.text)) & rests
        control = bench.draw_control([it for it in self.sources.all_functions() if bears_on(it)])
        for path, was, new in [edit.turned[0] for edit in laws]:
            with open(f"{self.sources.folder}/{path}", encoding="utf-8") as file:
                texts[path] = (texts.get(path) or file.read()).replace(was, new)
        proved = [*laws.values(), *control]
        ran = bench.check({**bench.rooms.edited([], proved), **texts}, proved)
        bench.keep_said(ran.stdout)
        known = dict(kit.FUNCTION_ROW.findall(ran.stdout))
        is_sound = all(is_proved(known.get(self.printed(it), "")) for it in control)
        is_read = not any(kit.unread(row, texts) for row in ran.stdout.split("\n"))
        if ran.returncode != 1 or not kit.LAST_ROW.search(ran.stdout) or not is_sound or not is_read:
            return {}
        said = {edit: known.get(self.printed(law), "") for edit, law in laws.items()}
        return {edit: text for edit, text in said.items() if text and not kit.NO_FAULT.match(text)}
