"""Reads what contracts rest on: the definitions of specs/, the types of src/ with what contracts see of them, and the contracts themselves."""
import glob
import re

# The functions whose contracts carry the status, from the checker to the process, and the laws by which they do.
HEADLINE = [
    ("si_checker/src/checkers.rt", "settled_findings"),
    ("si_run/src/runs.rt", "run"),
    ("si_run/src/runs.rt", "run_telling"),
    ("si_cli/src/programs.rt", "main_with"),
    ("si_cli/src/endings.rt", "end_with"),
    ("sicheck/src/main.rt", "check"),
    ("sicheck/src/main.rt", "main"),
    ("si_graph/src/laws.rt", "snapshots_are_clean"),
    ("si_run/src/laws.rt", "gate_is_exact"),
]
# What docs/TRUST.md has whole: what these clauses and definitions reach, and each premise of the headline.
STATUS = [("si_checker/src/checkers.rt", "settled_findings", ["snapshot"]), "si_run.GateLaws.IsGate", "si_run.Outputs.exit_code"]
# The parts of docs/DEFINITIONS.md: what these reach, clauses by their names, all where none is given, and definitions. A definition stands in the
# first part that reaches it.
PARTS = {
    "relation": ["si_model.Laws.FindingsAreExact but si_model.Findings.findings"],
    "passes": [("si_checker/src/checkers.rt", "settled_findings", ["number", "count", "sees"])],
    "thesis": [("si_checker/src/checkers.rt", "settled_findings", ["empty"])],
    "function": [("si_checker/src/checkers.rt", "settled_findings", ["found", "fault"])],
    "text": ["si_run.Runs.WritesText", "si_run.Runs.terms_by"],
    "faults": [("si_run/src/runs.rt", "run_telling", [])],
    "process": [("si_cli/src/programs.rt", "main_with", []), ("sicheck/src/main.rt", "check", [])],
    "order": ["si_graph.SerialLaws.SerialReadsAreClean", "si_graph.SerialLaws.CleanIsARun", "si_graph.SerialLaws.CleanIsSerializable"],
}
# Of these parts each definition has an example.
EXAMPLED = ("relation", "passes", "thesis", "function", "text", "faults")
TRUST = "tools/texts/trust.md"

# A definition's first line, at the margin or within a module; one that its file keeps to itself counts too.
STATED = re.compile(
    r"^(?: *(?:abbrev |unfoldable |opaque ))?pub (?:record |data )?([\w-]+)|^ +pub (?:record|data) ([\w-]+)"
    r"|^(?:abbrev |unfoldable |opaque |record |data )+(?!pub )([\w-]+)|^([\w-]+) :"
)
# What stands before a name and says who may see or unfold it, and nothing of what it means.
UNSAID = re.compile(r"^( *)(?:abbrev |unfoldable |opaque )?(?:pub )?")
USE = re.compile(r"^(?:ghost )? *(?:ghost )?use Rattle\.(\w+)\.specs\.([\w.]+?)(?:\.\{([^}]*)\})?(?: as (\w+))?;?$", re.M)
WORD = re.compile(r"(?<![\w.-])(\w[\w-]*)(?:\.([\w-]+))?")
TYPE = re.compile(r"^(?:pub(?:\(crate\))? )?(?:struct|enum|trait) (\w+)", re.M)
# (a ghost of a type that has no value would let a contract say nothing, so it is a premise too; a star says that memory is spoken of)
CLAUSE = re.compile(r"^\s+(requires|ensures|ghost)\b(\*?) ?(\w*):? ?\{", re.M)
VIEW = re.compile(r"^    ghost (Value|view|invariant|seen|bytes) = \{.*?\};$", re.M | re.S)
# The words of a definition's comment that its name is said to tell alone.
BY_NAME = "as its name says"


def text_of(path):
    with open(path, encoding="utf-8") as it:
        return it.read()


def at_name(name):
    """Returns a definition by CRATE.FILE.NAME."""
    crate, _, rest = name.partition(".")
    file, _, own = rest.rpartition(".")
    return crate, file, own


def closed_in(text):
    """Returns the definitions at which a page stops."""
    return [at_name(it) for it in re.findall(r"\[(?:closed|named) ([\w.-]+)\]", text)]


def examples_of(path):
    """Returns the example of each definition by CRATE.FILE.NAME."""
    rows = [it for it in text_of(path).split("\n") if it.strip() and not it.startswith("#")]
    return dict(it.split(": ", 1) for it in rows)


def inside(text, at):
    """Returns what stands between the brace at this place and the one that closes it."""
    depth = 0
    for end in range(at, len(text)):
        depth += (text[end] == "{") - (text[end] == "}")
        if not depth:
            return text[at + 1 : end]
    return text[at + 1 :]


def without_comments(text):
    """Returns the rows that are neither a comment nor a `use` line."""
    return "\n".join(row for row in text.split("\n") if not re.match(r"\s*(--|//)|\s*(ghost )?use ", row))


class Scope:
    """What the `use` lines of a file bring into it, for each name: definitions and types, those of the kit's libraries too."""

    def __init__(self, text):
        self.named, self.files = {}, {}
        for crate, path, names, other in USE.findall(text):
            own = [tuple(part.strip() for part in (it.split(" as ") * 2)[:2]) for it in names.split(",")] if names else []
            declared = re.match(r"declared\.([a-z_.]+)\.([A-Z]\w*)", path)
            if declared and declared[2] != "TheConstants":
                full = ("type", crate, declared[1], declared[2])
                for it in [other] if other else [renamed for _, renamed in own]:
                    self.named.setdefault(it, set()).add(full)
            elif other and not names:
                self.files[other] = (crate, path)
            else:
                for name, renamed in own:
                    self.named.setdefault(renamed, set()).add((crate, path, name))

    def reached(self, text):
        """Returns what a text names, by its name in this file or by its whole path: definitions, each by its crate, its file and its name, and types."""
        found = {full for full in re.findall(r"Rattle\.(\w+)\.specs\.([\w.]+)\.([\w-]+)", text)}
        for name, behind in WORD.findall(text):
            found |= self.named.get(name, set())
            if name in self.files:
                found.add((*self.files[name], behind))
        return found


class Reading:
    """All definitions and types of the tree. A definition goes by its crate, its file and its name, a type by 'type', crate, module and name."""

    def __init__(self):
        self.places, self.comments, self.texts, self.names = {}, {}, {}, {}
        self.seen = {}
        for path in sorted(glob.glob("crates/*/specs/**/*.antt", recursive=True)):
            if not path.endswith("/Lib.antt"):
                self.read_definitions(path)
        for path in sorted(glob.glob("crates/*/src/**/*.rt", recursive=True)):
            self.read_types(path)
        self.types = {}
        for full in self.places:
            if full[0] == "type":
                self.types.setdefault((full[1], full[3]), full)

    def read_definitions(self, path):
        crate, file = re.match(r"crates/(\w+)/specs/(.*)\.antt", path).groups()
        text = text_of(path)
        rows, scope = text.split("\n"), Scope(text)
        stated = {}
        for at, row in enumerate(rows):
            found = STATED.match(row)
            name = found and next(filter(None, found.groups()))
            if name and name not in ("mod", "use"):
                stated[at] = name
                scope.named.setdefault(name, set()).add((crate, file.replace("/", "."), name))
        for at, name in stated.items():
            full, end, above = (crate, file.replace("/", "."), name), at, at
            while end + 1 < len(rows) and rows[end + 1].strip() and end + 1 not in stated:
                end += 1
            while above and rows[above - 1].lstrip().startswith("--") and not rows[above - 1].startswith("-- ----"):
                above -= 1
            self.places[full] = (path, at + 1, end + 1)
            self.comments[full] = " ".join(row.strip()[2:].strip() for row in rows[above:at])
            self.texts[full] = "\n".join(re.sub(r"^( *)pub ", r"\1", UNSAID.sub(r"\1", row)) for row in rows[at : end + 1])
            self.names[full] = scope.reached(without_comments("\n".join(rows[at : end + 1]))) - {full}

    def read_types(self, path):
        crate, module = re.match(r"crates/(\w+)/src/(.*)\.rt", path).groups()
        text = text_of(path)
        for found in TYPE.finditer(text):
            full = ("type", crate, module.replace("/", "."), found[1])
            end = text.find(";", found.end())
            brace = text.find("{", found.end())
            if 0 <= brace and (brace < end or end < 0):
                end = brace + len(inside(text, brace)) + 1
            rows = text[: found.start()].split("\n")[:-1]
            first = len(rows)
            while first and re.match(r"\s*(///|#\[)", rows[first - 1]):
                first -= 1
            above = "\n".join(it for it in rows[first:] if not it.startswith("#["))
            self.places[full] = (path, len(rows) + 1, len(rows) + 1 + text[found.start() : end].count("\n"))
            self.comments[full] = " ".join(it.strip().removeprefix("///").strip() for it in above.split("\n") if it.strip())
            item = text[found.start() : end + 1]
            self.texts[full] = (above + "\n" if above else "") + item
            self.names[full] = {("by name", crate, it) for it in self.within(text, item)}
            self.seen[full] = []
        for impl in re.finditer(r"^impl(?:<[^{]*>)? (Model|ByteSource|ByteSink) for (\w+)[^{]*\{", text, re.M):
            full = ("type", crate, module.replace("/", "."), impl[2])
            if full in self.seen:
                body = inside(text, impl.end() - 1)
                self.seen[full] += [re.sub(r"\s+", " ", it[0].strip()) for it in VIEW.finditer(body)]
                value = re.search(r"ghost Value = \{(.*?)\};", body, re.S)
                if value:
                    # (of what it keeps, contracts see this alone)
                    self.names[full] = {("by name", crate, it) for it in re.findall(r"[A-Z]\w+", value[1])}

    @staticmethod
    def within(text, item):
        """Returns the names of types in a type's fields: those of its own crate, and those that the file takes from another."""
        item = re.sub(r"^    [A-Z]\w*", "", without_comments(item), flags=re.M)
        return re.findall(r"[A-Z]\w+", item)

    def below(self, full):
        """Returns what a definition or a type names: definitions, and types of this repository."""
        found = set()
        for it in self.names.get(full, ()):
            if it[0] == "by name":
                found |= self.type_named(it[1], it[2])
            elif it in self.places:
                found.add(it)
        return found - {full}

    def type_named(self, crate, name):
        """Returns the type of that name in the crate, or else the only one of that name."""
        own = self.types.get((crate, name))
        others = [full for (_, its), full in self.types.items() if its == name]
        return {own} if own else set(others) if len(others) == 1 else set()

    def order(self, full):
        """By this what one names stands: first types, then definitions in the order of their files."""
        return (full[0] != "type", self.places[full][:2])

    def reached(self, roots, without=()):
        """What these name and what that names, from the contract down: what is named by one comes before what is named by the next."""
        found, left = [], list(roots)
        while left:
            name = left.pop(0)
            if name in self.places and name not in found and name not in without:
                found.append(name)
                left += sorted(self.below(name), key=self.order)
        return found

    def bottom_up(self, roots, without=()):
        """The same with nothing before what it names."""
        found, begun = [], set(without)

        def visit(full):
            if full in self.places and full not in begun:
                begun.add(full)
                for it in sorted(self.below(full), key=self.order):
                    visit(it)
                found.append(full)

        for it in roots:
            visit(it)
        return found

    def link(self, full):
        path, first, _ = self.places[full]
        return f"[`{full[-1]}`](../{path}#L{first})"

    def sentence(self, full):
        return self.comments[full] or BY_NAME

    def library_words(self, full):
        """Returns the words of the kit's libraries that its file takes, with ◌ where an operator's arguments go."""
        own = [(path, names) for crate, path, names, _ in USE.findall(text_of(self.places[full][0])) if crate == "std"]
        return {name.strip() for path, names in own if not path.startswith("declared") for name in names.split(",")}

    def roots(self, asked):
        """Returns the definitions that these clauses, or these names, lead to first, and those that are left out."""
        found, without = [], set()
        for it in asked:
            if isinstance(it, str):
                first, _, other = it.partition(" but ")
                found.append(at_name(first))
                without |= {at_name(other)}
            else:
                path, function, names = it
                contract = Contract(path, function)
                own = {full for kind in contract.types for full in self.type_named(*kind[1:])} if not names else set()
                found += sorted((contract.named(names) | own) & set(self.places), key=self.order)
        return found, without

    def on_trust(self):
        """Returns what docs/TRUST.md has whole, nothing before what it names, and the definitions at which it stops."""
        closed = closed_in(text_of(TRUST))
        premises = {it for path, function in HEADLINE for it in Contract(path, function).named(premises=True) if it[0] != "type"}
        roots = self.roots(STATUS)[0] + sorted(premises & set(self.places), key=self.order)
        return self.bottom_up(roots, closed), closed

    def headline_types(self):
        """Returns the types of what the headline's functions take and answer."""
        return [it for path, function in HEADLINE for kind in sorted(Contract(path, function).types) for it in self.type_named(*kind[1:])]

    def parts(self):
        """Returns what stands in each part of docs/DEFINITIONS.md, and the types that these speak of."""
        told, closed = self.on_trust()
        parts, seen, types = {}, {*told, *closed}, []
        for name, asked in PARTS.items():
            roots, without = self.roots(asked)
            reached = self.reached(roots, without)
            parts[name] = [it for it in reached if it not in seen and it[0] != "type"]
            types += [it for it in reached if it[0] == "type" and it not in seen]
            seen |= set(reached)
        types += [it for it in self.reached(self.headline_types()) if it[0] == "type" and it not in seen]
        return parts, types


def head_of(text):
    """Returns a function's signature and clauses, up to its body."""
    rows = []
    for row in text.split("\n"):
        if row.strip() in ("{", "{}") or (row.endswith((" {", " {}")) and not re.match(r"\s+(requires|ensures|ghost)\b", row)):
            return "\n".join([*rows, row.rstrip("{} ")])
        rows.append(row)
    return text


class Contract:
    """The contract of a function: its clauses, each with 'requires' or 'ensures', its name and its text, and what each names."""

    def __init__(self, path, function):
        text = text_of(f"crates/{path}")
        found = re.search(rf"^ *(?:pub )?fn {function}\b", text, re.M)
        if not found:
            raise SystemExit(f"{path} has no function {function}")
        head = head_of(text[found.start() :])
        scope = Scope(text)
        self.path, self.function, self.clauses = path, function, []
        for it in CLAUSE.finditer(head):
            said = inside(head, it.end() - 1)
            self.clauses.append((it[1] + it[2], it[3], re.sub(r"\s+", " ", said.strip()), scope.reached(said)))
        # (its parameters, its bounds and its result, by the names of their types; and those of the block in which it stands)
        impls = re.findall(r"^impl.*\{$", text[: found.start()], re.M) if found[0].startswith(" ") else []
        self.types = {("by name", path.split("/")[0], it) for it in re.findall(r"[A-Z]\w+", CLAUSE.split(head)[0] + "".join(impls[-1:]))}

    def printed(self, kind, name=None):
        """Returns its clauses of a kind, or the one of a name, as they stand; what isn't ensured is asked."""
        return [
            f"{its} {own + ' ' if own else ''}{{ {said} }}"
            for its, own, said, _ in self.clauses
            if its.startswith("ensures") == (kind == "ensures") and name in (None, own)
        ]

    def named(self, names=None, premises=False):
        """What its clauses name, or its premises, or the clauses of these names."""
        return {
            it
            for kind, own, _, reached in self.clauses
            if not (premises and kind.startswith("ensures")) and (not names or own in names)
            for it in reached
        }


def premises_text():
    """Returns what the headline's contracts ask of a caller, each premise once."""
    asked = {}
    for path, function in HEADLINE:
        for said in Contract(path, function).printed("requires") or ["requires nothing"]:
            asked.setdefault(said, []).append(function)
    return "```text\n" + "\n".join(f"{', '.join(functions)} {said}" for said, functions in asked.items()) + "\n```"


def clauses(text):
    """Returns the clauses of the public functions of a file, and of the functions of its public traits."""
    heads = list(re.finditer(r"^([ ]*)(pub )?fn \w+", text, re.M))
    for number, head in enumerate(heads):
        before = text[: head.start()]
        trait = before.rfind("\npub trait ")
        in_trait = bool(head[1]) and trait >= 0 and "\n}" not in before[trait:]
        if not head[2] and not in_trait:
            continue
        end = heads[number + 1].start() if number + 1 < len(heads) else len(text)
        for clause in re.finditer(r"^\s+(?:requires|ensures)\b[^{]*\{", text[head.start() : end], re.M):
            yield inside(text, head.start() + clause.end() - 1)


def cited():
    """Returns each definition that a clause of a public contract names, with the first file that does."""
    found = {}
    for path in sorted(glob.glob("crates/*/src/**/*.rt", recursive=True)):
        if "_tests/" not in path:
            text = text_of(path)
            scope = Scope(text)
            for clause in clauses(text):
                for full in scope.reached(clause):
                    if full[0] != "type":
                        found.setdefault(full, path)
    return found
