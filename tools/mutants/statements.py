"""Tells what rests on a statement of a crate's specs/, by the words of its files. Where it is in doubt, it rests on it."""

import os
import re

NAME = re.compile(r"\s*(?:(?:pub|abbrev|unfoldable|record|data|private) )*([^\s(){}:]+)")
WORDS = re.compile(r"[^\s(){}\[\].,:;]+")
COMMENT = re.compile(r"\s*(?:--|//)")
USE = re.compile(r"\s*(?:pub |ghost )*use ")
RENAMED = re.compile(r"([^\s{},.]+) as ([^\s{},;]+)")


def words_of(text, file=""):
    """Returns the words of a text, comments and `use` lines aside, and for what a `use` line of its file renames the
    name that it has."""
    rows = [row for row in text.split("\n") if not COMMENT.match(row) and not USE.match(row)]
    words = {word for row in rows for word in WORDS.findall(row)}
    uses = "\n".join(row for row in (file or text).split("\n") if USE.match(row))
    return words | {name for name, other in RENAMED.findall(uses) if other in words}


def words_of_header(function, text):
    """Returns the words of a function's header, with its attributes."""
    return words_of(text[function.head : function.body[0]].decode(), text.decode())


def words_of_clauses(files, texts, law):
    """Returns the words of src/ that stand in no function's body and not in this law, the names of functions aside."""
    words = set()
    for path, near in files.items():
        text, inner = texts[path], sorted((it.head if it is law else it.body[0], it.body[1]) for it in near)
        starts, ends = [0, *(end for _, end in inner)], [*(start for start, _ in inner), len(text)]
        words |= words_of(b"\n".join(text[start:end] for start, end in zip(starts, ends)).decode(), text.decode())
    return words - {it.path.rpartition("::")[2] for near in files.values() for it in near}


class Statements:
    """The definitions and lemmas of a crate, in the order of each file of specs/ and proofs/: at which lines each
    stands, what it declares and which words it has. That a search takes no lemma that isn't named is taken for granted.
    Functions' own proofs are left out."""

    def __init__(self, folder):
        self.files = {}
        for part in ("specs", "proofs"):
            for at, _, names in os.walk(f"{folder}/{part}"):
                for name in names:
                    if name.endswith(".antt") and name not in ("Answers.antt", "Invariants.antt", "Proof.antt"):
                        path = f"{at}/{name}"
                        with open(path, encoding="utf-8") as it:
                            self.files[os.path.relpath(path, folder)] = list(self.parts(it.read().split("\n")))

    @staticmethod
    def parts(rows):
        """Parts a file where a line that isn't indented follows an empty one."""
        starts = [it for it, row in enumerate(rows) if row[:1].strip() and (it == 0 or not rows[it - 1].strip())]
        for start, end in zip(starts, [*starts[1:], len(rows)]):
            said = [row for row in rows[start:end] if row.strip() and not USE.match(row)]
            said = [row for row in said if not row.startswith(("--", "unfolding "))]
            within = any(row.startswith("module ") for row in said)
            declared = {NAME.match(row)[1] for row in said if NAME.match(row) and (within or row[:1].strip())}
            yield range(start, end), declared, words_of("\n".join(rows[start:end]), "\n".join(rows))

    def resting_on(self, path, row, names):
        """Returns the names of what is declared at this line of the file, with these, and of all that names one of
        them."""
        found = set(names).union(*(declared for rows, declared, _ in self.files.get(path, ()) if row in rows))
        while True:
            parts = [part for parts in self.files.values() for part in parts]
            more = {name for _, declared, words in parts if words & found for name in declared} - found
            if not more:
                return found
            found |= more
