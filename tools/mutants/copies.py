"""Puts a function a second time into its file, for a further edit of it in the same check: with its contract and its
proof, under another name, at the file's end, so that the lines before it stay as they are."""

import os
import re
import shutil

from .functions import Function


class Copies:
    def __init__(self, sources, paths):
        self.sources, self.paths = sources, paths
        # Whether a function can't be copied, by what is known so far.
        self.unfit = {}

    def can_hold(self, edit):
        """Returns whether the edit changes one body alone, of a function that can stand a second time in its file: none
        whose proof another one names."""
        if len(edit.functions) != 1 or edit.is_headed or edit.functions[0].around is None or edit.functions[0].cycle:
            return False
        function = edit.functions[0]
        if function not in self.unfit:
            self.unfit[function] = self.is_named_by_other_proofs(function)
        return not self.unfit[function]

    def is_named_by_other_proofs(self, function):
        own = tuple(f"{self.sources.folder}/proofs/{place}/" for place in self.paths.proof_folders(function))
        parts = [path.split("::") for path in self.paths.candidates(function)[:1]]
        dotted = [re.escape(".".join([*part[1:-1], part[-1]])) for part in parts]
        named = re.compile("|".join(rf"proofs\.(?:{name})\.(?!Met\b)" for name in dotted))
        return any(named.search(text) for file, text in self.sources.proofs().items() if not file.startswith(own))

    def aims_of(self, batch):
        """Returns which functions each edit of the batch is to be refused at: the first edit of a function at that
        function, each further one at a copy of it. These copies are those of the sources from now on."""
        aims, seen, self.sources.copies = {}, [], []
        for edit in batch:
            aims[edit] = edit.functions
            if any(it in seen for it in edit.functions):
                (of,) = edit.functions
                aims[edit] = [self.copy_of(of)]
            seen += edit.functions
        return aims

    def copy_of(self, of):
        copies = self.sources.copies
        copy = Function(f"{of.path}_beside_{len(copies)}", (0, 0), of.body, None, of.head, of.name_at, of.around)
        copy.of, copy.file, copy.text = of, of.file, of.text
        copies.append(copy)
        return copy

    def text_of(self, copy, changes):
        """Returns the text of a copy of a function, under its name and with these changes of its body."""
        text = self.sources.texts[copy.file]
        copied = text[copy.head : copy.body[1]]
        renamed = ("", copy.name_at, copy.of.name.encode(), copy.name.encode())
        for _, at, was, new in sorted([*changes, renamed], key=lambda it: -it[1]):
            copied = copied[: at - copy.head] + new + copied[at - copy.head + len(was) :]
        if not copy.around:
            return (copied + b"\n").decode()
        # (what the impl brings into scope stands at its head)
        uses = re.match(rb"\{((?:\s*ghost use [^;]*;)*)", text[copy.around[1] :])[1]
        return (text[slice(*copy.around)] + b"{" + uses + b"\n" + copied + b"\n}\n").decode()

    def add_to(self, texts, copied):
        """Adds these copies, each with the changes of its body, at the ends of their files."""
        for copy, changes in copied:
            text = texts.get(copy.file) or self.sources.texts[copy.file].decode()
            more = self.text_of(copy, changes)
            copy.lines = (text.count("\n") + 1, text.count("\n") + more.count("\n"))
            texts[copy.file] = text + more

    def copy_proofs(self, proofs):
        """Gives each copy of a function the proof of the function, in this folder of proofs."""
        for copy in self.sources.copies:
            for old, new in zip(self.paths.proof_folders(copy.of), self.paths.proof_folders(copy)):
                if not os.path.isdir(f"{proofs}/{old}"):
                    continue
                shutil.copytree(f"{proofs}/{old}", f"{proofs}/{new}")
                for at, _, files in os.walk(f"{proofs}/{new}"):
                    for file in files:
                        self.rename_in(f"{at}/{file}", copy)

    def rename_in(self, path, copy):
        """Has a file of a copy's proof name the copy instead of the function."""
        *places, _ = self.paths.printed(copy.of).split("::")[1:]
        with open(path, encoding="utf-8") as file:
            text = file.read()
        for before in (".".join([*places, ""]), ".".join([*places, "fn", ""])):
            named = rf"(?<![\w.])((?:[\w+]+\.)*){re.escape(before)}{copy.of.name}(?![\w-])"
            text = re.sub(named, rf"\g<1>{before}{copy.name}", text)
        text = re.sub(rf"(?<![\w.-]){copy.of.name}_spec\b", f"{copy.name}_spec", text)
        with open(path, "w", encoding="utf-8") as file:
            file.write(text)
