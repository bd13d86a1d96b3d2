"""Makes the folder that a check runs in: a copy of a crate with other texts of its sources, in which each function that isn't
to be proved has an endless loop for its body and a hole for its proof, so that nothing is read that isn't edited."""

import contextlib
import os
import re
import shutil

from . import kit
from .statements import USE, Statements, words_of


class Rooms:
    def __init__(self, sources, paths, copies):
        self.sources, self.paths, self.copies = sources, paths, copies

    # ---- its sources

    def edited(self, batch, proved, aims=None):
        """Returns the texts of the files of src/, with each edit of the batch at its place in the original or in a
        copy, and with a body that says nothing in each function that isn't to be proved: what calls it goes by its
        contract."""
        changes, copied = {}, []
        for edit in batch:
            if aims and aims[edit][0].of:
                copied.append((aims[edit][0], edit.changes))
                continue
            for path, at, was, new in edit.changes:
                changes.setdefault(path, []).append((at, was, new))
        for path in self.sources.by_file:
            for it in self.emptied(path, proved):
                was = self.sources.texts[path][slice(*it.body)]
                changes.setdefault(path, []).append((it.body[0], was, b"{ loop {}" + b"\n" * was.count(b"\n") + b"}"))
        texts = {}
        for path, found in changes.items():
            text = self.sources.texts[path]
            for at, was, new in sorted(found, reverse=True):
                text = text[:at] + new + text[at + len(was) :]
            texts[path] = text.decode()
        self.copies.add_to(texts, copied)
        return texts

    def emptied(self, path, proved):
        """Returns the functions of the file whose bodies a batch leaves out: those that it doesn't prove, but for what
        a cycle's one proof or a function around them needs."""
        near = self.sources.by_file[path]
        inside = lambda one, two: two.body[0] <= one.body[0] and one.body[1] <= two.body[1]
        is_nested = lambda it: any(it is not two and (inside(it, two) or inside(two, it)) for two in near)
        return [it for it in near if it not in proved and not it.cycle and not is_nested(it)]

    # ---- its proofs

    def fill(self, room, texts, proved, edited, without):
        """Makes the copy in this folder. For those functions that are edited no proof is offered. 'without' has
        functions with the answers of their own proofs that are taken out."""
        for part in kit.PARTS:
            if os.path.isdir(f"{self.sources.folder}/{part}"):
                shutil.copytree(f"{self.sources.folder}/{part}", f"{room}/{part}")
        proofs = f"{room}/proofs"
        self.copies.copy_proofs(proofs)
        self.leave_out([it for it in self.sources.all_functions() if it not in proved], proofs)
        for it, goals in without.items():
            take_out(goals, [f"{proofs}/{place}/Answers.antt" for place in self.paths.proof_folders(it)])
        self.ask_for_no_offers(edited, proofs)
        for path, text in texts.items():
            with open(f"{room}/{path}", "w", encoding="utf-8") as file:
                file.write(text)

    def leave_out(self, functions, proofs):
        """Puts a hole in the place of the proofs of these functions; a cycle has one proof, and keeps it."""
        os.makedirs(proofs, exist_ok=True)
        with open(f"{proofs}/LeftOut.antt", "w", encoding="utf-8") as file:
            file.write("pub anything : {A : Type 2} → A\nanything = ?\n")
        with open(f"{proofs}/Lib.antt", "a", encoding="utf-8") as file:
            file.write("mod LeftOut\n")
        head = f"Rattle.{self.sources.crate.name}.proofs"
        for path in [self.paths.printed(it) for it in functions if not it.cycle]:
            _, *places, name = path.split("::")
            at = "/".join([proofs, *places, name])
            os.makedirs(at, exist_ok=True)
            for part in ("Answers", "Invariants"):
                with contextlib.suppress(FileNotFoundError):
                    os.remove(f"{at}/{part}.antt")
            with open(f"{at}/Proof.antt", "w", encoding="utf-8") as file:
                file.write(f"use {'.'.join([head, *places, name])}.Statement.{{statement}}\n")
                file.write(f"use {head}.LeftOut.{{anything}}\n\n")
                file.write(f"pub {name}_spec : {{M : Type 1}} → statement M\n{name}_spec = anything\n")

    def ask_for_no_offers(self, functions, proofs):
        """Adds to the proofs of these functions an answer to a goal that there isn't. A check that refuses a function
        reads all once more to offer the answers that lack, but not where an answer has such a fault, which says nothing
        of the function (kit.NAMES_GONE)."""
        for path in [self.paths.printed(it) for it in functions if not it.cycle]:
            _, *places, name = path.split("::")
            at = "/".join([proofs, *places, name])
            goals = ".".join(["Rattle", self.sources.crate.name, "proofs", *places, name, "Goals"])
            if os.path.isfile(f"{at}/Proof.antt"):
                continue
            os.makedirs(at, exist_ok=True)
            text = ""
            with contextlib.suppress(FileNotFoundError), open(f"{at}/Answers.antt", encoding="utf-8") as file:
                text = file.read()
            named = re.search(rf"^use {re.escape(goals)} as (\w+)$", text, re.M)
            goal = named[1] if named else "goal"
            head = "" if named else f"use {goals} as {goal}\n"
            with open(f"{at}/Answers.antt", "w", encoding="utf-8") as file:
                file.write(f"{head}{text}\n\npub {kit.NO_OFFER} : {goal}.{kit.NO_OFFER}\n{kit.NO_OFFER} = ?\n")


def take_out(goals, files):
    """Takes the answers of these goals out of the files, with what names them there, so that the search is asked for
    them."""
    for path in (it for it in files if os.path.isfile(it)):
        with open(path, encoding="utf-8") as file:
            rows = file.read().split("\n")
        with open(path, "w", encoding="utf-8") as file:
            file.write("\n".join(rows_without(rows, goals)))


def rows_without(rows, goals):
    """Returns the rows of a file of answers without those of these goals, and without what names them."""
    parts, gone = list(Statements.parts(rows)), set(goals)
    while more := {name for _, declared, words in parts if (declared | words) & gone for name in declared} - gone:
        gone |= more
    is_gone = lambda at: any(at in place and declared & gone for place, declared, _ in parts)
    left = [row for at, row in enumerate(rows) if not is_gone(at)]
    # (places in the code are there only for answers that cite them)
    words = words_of("\n".join(left))
    kept = lambda names: ", ".join(it for it in names[1].split(", ") if it in words)
    keep = lambda row: re.sub(r"\{([^}]*)\}", lambda names: f"{{{kept(names)}}}", row)
    left = [keep(row) if USE.match(row) and ".Goals.{" in row else row for row in left]
    return [row for row in left if not row.endswith(".Goals.{}")]
