"""Tells which functions an edit changes, and what else: so whether it can stand in a check beside others."""

import os
import re
import tempfile

from . import kit
from .functions import functions
from .goals import BREAKS

CLAUSE = re.compile(r"^\s*ensures(?: (\w+))?\s*\{", re.M)


def rows_named(text, name):
    """Returns what stands behind this name in the lines of an edit that begin with it."""
    return [row[len(name) :].strip() for row in text.split("\n") if row.startswith(name)]


class Placing:
    def __init__(self, sources, paths):
        self.sources, self.paths = sources, paths

    def place(self, edit):
        """Finds the functions that the edit changes, and says why where the edit can't be applied."""
        texts, why = kit.read_edit(edit, self.sources.folder)
        if why:
            return why
        edit.tried_at, edit.breaks = rows_named(edit.text, "at: "), rows_named(edit.text, "breaks: ")
        strange = [it for it in edit.breaks if not BREAKS.match(it)]
        if strange:
            clauses = "'ensures NAME', 'requires of FUNCTION: NAME', 'invariant of TYPE: NAME', 'safe' or 'ends'"
            return f"it breaks '{strange[0]}', which is no {clauses}"
        path, old = "", ""
        for row in edit.text.split("\n"):
            path = row[len("file: ") :].strip() if row.startswith("file: ") else path
            old = row[len("old: ") :] if row.startswith("old: ") else old
            if row.startswith("new:"):
                self.place_one(edit, path, old.encode(), row[len("new:") :].removeprefix(" ").encode())
        edit.texts = texts if edit.is_elsewhere else None
        return self.fault_of_clauses(edit)

    def fault_of_clauses(self, edit):
        """Says why where the clauses that the edit names aren't those of its functions, or where it has to name one and
        doesn't."""
        has_answers = lambda place: os.path.isfile(f"{self.sources.folder}/proofs/{place}/Answers.antt")
        own = [place for it in edit.functions for place in self.paths.proof_folders(it) if has_answers(place)]
        if own and not edit.breaks and not edit.is_elsewhere:
            wanted = "name the clause that it breaks by a line 'breaks: ..' (CONTRIBUTING.md)"
            return f"its function has a proof of its own, {own[0]}: {wanted}"
        named = [it for it in edit.breaks if it.startswith("ensures")]
        has = {name for it in edit.functions for name in CLAUSE.findall(self.sources.header_of(it))}
        absent = [it for it in named if has and it[len("ensures ") :] not in has]
        return f"its function has no clause '{absent[0]}'" if absent else None

    def place_one(self, edit, path, was, new):
        """Notes one replacement of an edit, and the function in whose body or header it stands, if there is one."""
        texts = self.sources.texts
        if not (path.startswith("src/") and path.endswith(".rt")) or texts[path].count(was) != 1:
            edit.is_elsewhere = True
            if path.startswith("specs/"):
                edit.turned.append((path, was.decode(), new.decode()))
            return
        at = texts[path].index(was)
        same = len(os.path.commonprefix([was, new]))
        rest = min(len(os.path.commonprefix([was[::-1], new[::-1]])), len(was) - same, len(new) - same)
        start, end = at + same, at + len(was) - rest
        near = self.sources.functions_in(path)
        inside = [it for it in near if it.body[0] < start and end < it.body[1]]
        headed = [] if inside else [it for it in near if it.head < start and end < it.body[1] and not it.cycle]
        edit.changes.append((path, at, was, new))
        edit.is_elsewhere = edit.is_elsewhere or not inside and not headed
        edit.is_headed = edit.is_headed or bool(headed)
        edit.is_wide = edit.is_wide or any(not self.keeps_header(it, at, was, new) for it in headed[:1])
        edit.functions += [it for it in (inside or headed)[:1] if it not in edit.functions]

    def keeps_header(self, function, at, was, new):
        """Returns whether the function has the same header and contract after this replacement, which only puts another
        body before its own: what calls it goes by them."""
        text = self.sources.texts[function.file]
        edited = text[:at] + new + text[at + len(was) :]
        with tempfile.NamedTemporaryFile(suffix=".rt") as file:
            file.write(edited)
            file.flush()
            after = [it for it in functions(file.name, self.sources.crate.name) if it.head == function.head]
        headers = [edited[it.head : it.body[0]].split() for it in after]
        return headers == [text[function.head : function.body[0]].split()]
