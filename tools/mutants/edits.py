"""Reads wrong bodies from the files that hold them: wrong-bodies/NAME.edits has those of one source file, each under a line
`edit: NAME`, and a file NAME.edit one alone, as the kit wants it in must-fail/."""

import os

FOLDERS = ("wrong-bodies", "must-fail")
HEADING = "edit: "


class Edit:
    """A wrong body: its name and text, the functions whose bodies or contracts it changes, with its replacements, what
    its lines `at:` name as refusing it, where it changes something else, with what it turns in specs/, and the clauses
    that it breaks, as far as it says so."""

    def __init__(self, name, text):
        self.name, self.text = name, text
        # Each replacement in src/ as the file, the place in it, the old bytes and the new ones, and each in specs/ with
        # its texts.
        self.changes, self.turned = [], []
        self.functions, self.tried_at, self.breaks = [], [], []
        # Whether it changes something else than functions; a header too; and so that the function has another header or
        # contract then.
        self.is_elsewhere = self.is_headed = self.is_wide = False
        # The texts of all files that it changes, where it is elsewhere.
        self.texts = None


def parts_of(text):
    """Returns the edits of a file NAME.edits as pairs of a name and a text, and whether nothing else stands before the
    first one."""
    before, *parts = f"\n{text}".split(f"\n{HEADING}")
    found = [part.partition("\n") for part in parts]
    return [(f"{name.strip()}.edit", body.rstrip("\n") + "\n") for name, _, body in found], not before.strip()


def read_folder(at):
    """Returns the edits that stand in a folder by their names, and pairs of a name and why it can't stand for an
    edit."""
    edits, faults = [], []
    for name in sorted(os.listdir(at)) if os.path.isdir(at) else ():
        if name.endswith(".md"):
            continue
        if not name.endswith((".edit", ".edits")):
            faults.append((name, "its name doesn't end in .edits or .edit (or .md, if it is only to be read)"))
            continue
        with open(f"{at}/{name}", encoding="utf-8", newline="") as file:
            text = file.read()
        parts, is_whole = parts_of(text) if name.endswith(".edits") else ([(name, text)], True)
        if not parts or not is_whole:
            faults.append((name, f"it doesn't begin with a line '{HEADING}NAME'"))
        edits += [Edit(*part) for part in parts]
    edits.sort(key=lambda it: it.name)
    return edits, faults


def read_edits(folder, kinds):
    """Returns the edits of the crate in this folder, those of these kinds, and the faults of what stands beside
    them."""
    edits, faults = [], []
    for kind in kinds:
        more, bad = read_folder(f"{folder}/{kind}")
        known = {it.name for it in edits}
        for edit in more:
            if edit.name in known:
                faults.append((edit.name, "another wrong body of its crate has its name"))
            else:
                edits.append(edit)
            known.add(edit.name)
        faults += bad
    return edits, faults
