"""Reads the sources of one crate: its files with their functions and types, and the texts of its proofs."""

import os
import re

from .functions import functions

TYPE = re.compile(rb"^\s*(?:pub(?:\([a-z]+\))? )?(?:struct|enum|trait) (\w+)", re.M)


class Sources:
    """By the file's path the bytes and the functions of each file of src/, the module of each type, and the text of
    each file of proofs/. 'copies' are the functions that the check at hand has beside these."""

    def __init__(self, crate):
        self.crate, self.folder = crate, crate.folder
        self.texts, self.by_file, self.module_of_type = {}, {}, {}
        self.copies, self.proof_texts = [], None

    def functions_in(self, path):
        if path not in self.by_file:
            with open(f"{self.folder}/{path}", "rb") as file:
                self.texts[path] = file.read()
            parts = path[len("src/") : -len(".rt")].split("/")
            module = "::".join([self.crate.name, *([] if parts in (["lib"], ["main"]) else parts)])
            self.by_file[path] = functions(f"{self.folder}/{path}", module)
            for it in self.by_file[path]:
                it.text, it.file = self.texts[path][slice(*it.body)].decode(), path
            for name in TYPE.findall(self.texts[path]):
                self.module_of_type[name.decode()] = module
        return self.by_file[path]

    def read(self):
        """Reads the functions of all files of src/."""
        for at, _, names in os.walk(f"{self.folder}/src"):
            for name in sorted(it for it in names if it.endswith(".rt")):
                self.functions_in(os.path.relpath(f"{at}/{name}", self.folder))

    def all_functions(self):
        return [*(it for near in self.by_file.values() for it in near), *self.copies]

    def header_of(self, function):
        """Returns the text of a function's header and contract, with its attributes."""
        return self.texts[function.file][function.head : function.body[0]].decode()

    def proofs(self):
        """Returns the text of each file of proofs/."""
        if self.proof_texts is None:
            self.proof_texts = {}
            for at, _, names in os.walk(f"{self.folder}/proofs"):
                for name in names:
                    with open(f"{at}/{name}", encoding="utf-8") as file:
                        self.proof_texts[f"{at}/{name}"] = file.read()
        return self.proof_texts
