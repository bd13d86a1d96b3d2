"""Finds the functions of a file of Rattle's."""

import re

from . import kit


class Function:
    """A function with a body: the path of the place where it stands, its lines, where it starts with its attributes,
    where its name stands, the bytes of its body and their text, and where it is in a cycle of calls, which have one
    proof, the path of that proof. 'around' says where the header of the impl around it stands, is empty where nothing
    is around it, and None for what can't be copied; a copy is 'of' a function."""

    def __init__(self, path, lines, body, cycle, head=0, name_at=0, around=None):
        self.path, self.lines, self.body, self.cycle, self.text = path, lines, body, cycle, ""
        self.head, self.name_at, self.around, self.file, self.of = head, name_at, around, "", None

    @property
    def name(self):
        return self.path.rpartition("::")[2]

    def shares_proof(self, other):
        return other is self or bool(self.cycle) and other.cycle == self.cycle


def header(words):
    """Returns the words of a header that stand outside <> and before 'where', and those that stand right inside <>."""
    outside, inside, depth = [], [], 0
    for word in words:
        depth += (word == "<") - (word == ">")
        if word == "where":
            break
        if re.fullmatch(r"\w+", word):
            (inside if depth else outside).append((word, len(outside)))
    return [it for it, _ in outside], inside


def segment(kind, words):
    """Returns what an impl, a trait or a module adds to the paths of its functions: for a trait's impl the type, the
    trait, and behind a colon the trait's first argument, which a check prints where a type has several of that trait; a
    reference is `Ref` or `RefMut`."""
    names, inside = header(words)
    if kind == "impl" and "for" in names:
        cut = names.index("for")
        argument = next((it for it, after in inside if after == cut), "")
        type_name = names[-1] if names[cut + 1 :] else ""
        behind = words[words.index("for") + 1 :]
        if behind[:1] == ["&"]:
            type_name = "RefMut" if "mut" in behind[1:3] else "Ref"
        return type_name + (names[cut - 1] if cut else "") + (f":{argument}" if argument else "")
    return names[-1 if kind == "impl" else 0] if names else ""


def past(code, at, closes):
    """Returns where the first of these words stands from 'at' on, outside round and square brackets."""
    depth = 0
    while at < len(code) and (depth or code[at][3] not in closes):
        depth += (code[at][3] in "([") - (code[at][3] in ")]")
        at += 1
    return at


def attributes_before(code, at):
    """Returns the name of the cycle that the attributes before a function give it, if they do, and the line and the
    place where they start."""
    name = None
    while at > 0 and code[at - 1][3] not in "{};":
        at -= 1
        if code[at][3] == "cycle":
            name = code[at + 2][3]
    return name, code[at][0], code[at][1]


def around(scopes):
    """Returns where the header of the impl stands in which a function is written, if it can be written once more in one
    of its own."""
    named = [it for it in scopes if it[1]]
    return () if not scopes else named[0][2] if len(scopes) == len(named) == 1 else None


def functions(file, module):
    """Returns the functions of a file, whose module has this path."""
    code, found, scopes, depth, at = kit.code_words(file), [], [], 0, 0
    while at < len(code):
        word = code[at][3]
        begins = at == 0 or code[at - 1][3] in ("}", ";", "]", "{", ")", "pub", "unsafe")
        if word in ("impl", "trait", "mod") and begins:
            end = past(code, at + 1, "{;")
            if end < len(code) and code[end][3] == "{":
                scopes.append((depth, *scope_of(code, at, end)))
                depth += 1
            at = end + 1
            continue
        if word == "fn" and at + 1 < len(code) and re.fullmatch(r"\w+", code[at + 1][3]):
            end = past(code, at + 2, "{;")
            if end < len(code) and code[end][3] == "{":
                behind = behind_body(code, end)
                found.append(function_at(code, at, end, behind, module, scopes))
                at = behind
                continue
            at = end + 1
            continue
        depth += (word == "{") - (word == "}")
        if word == "{":
            scopes.append((depth - 1, "", None))
        while word == "}" and scopes and scopes[-1][0] >= depth:
            scopes.pop()
        at += 1
    return found


def scope_of(code, at, end):
    """Returns what the impl, trait or module at this word adds to paths, and of an impl of a type's own where its
    header stands."""
    kind, words = code[at][3], [it[3] for it in code[at + 1 : end]]
    is_plain = kind == "impl" and "for" not in header(words)[0]
    return segment(kind, words), (code[at][1], code[end][1]) if is_plain else None


def behind_body(code, opens):
    """Returns the word behind the body that this brace opens."""
    at, inner = opens + 1, 1
    while at < len(code) and inner:
        inner += (code[at][3] == "{") - (code[at][3] == "}")
        at += 1
    return at


def function_at(code, at, opens, behind, module, scopes):
    """Returns the function whose `fn` is the word 'at', with its body between these words."""
    cycle, line, head = attributes_before(code, at)
    path = "::".join([module, *[it[1] for it in scopes if it[1]], code[at + 1][3]])
    lines, body = (line, code[behind - 1][0]), (code[opens][1], code[behind - 1][2])
    return Function(path, lines, body, cycle and f"{module}::+{cycle}", head, code[at + 1][1], around(scopes))


def outermost(path):
    """Returns the path of the function in which a closure or an item of its body stands."""
    before, _, rest = path.partition("::fn::")
    return f"{before}::{rest.split('::')[0]}" if rest else path
