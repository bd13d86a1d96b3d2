"""EDN, the notation in which Jepsen and Elle write histories: a reader, fast where a line is a plain map.

`nil` is None; a whole number is an int, any other a Decimal; a keyword is a str that begins with its colon; a text is a `Text`, a character too;
a symbol is a `Symbol`; lists and vectors are tuples, or lists where a line was read fast; sets are frozensets, maps are dicts; and of a tagged form what stands behind the tag.
"""
import json
import re
from decimal import Decimal
from typing import Any, Callable, Dict, Iterable, Iterator, List, NamedTuple, Optional, Tuple

DEEPEST = 500


class Text(NamedTuple):
    """A text, which no keyword equals."""
    text: str


class Symbol(NamedTuple):
    """A symbol, or a number of a form that isn't read."""
    name: str


class EdnFault(ValueError):
    """It is no EDN."""


class Unended(EdnFault):
    """It may be the beginning of a form."""


BLANK = re.compile(r"(?:[\s,]+|;[^\n]*(?:\n|$))*")
TOKEN = re.compile(r'[()\[\]{}]|#\{|#_|"(?:[^"\\]|\\.)*"|\\(?:[^\s\[\](){}",;]+|.)|#?[^\s\[\](){}",;]+', re.DOTALL)
WHOLE = re.compile(r"([+-]?(?:0|[1-9][0-9]*))N?")
OTHER_NUMBER = re.compile(r"([+-]?[0-9]+(?:\.[0-9]*)?(?:[eE][+-]?[0-9]+)?)M?")
ESCAPE = re.compile(r"\\(u[0-9a-fA-F]{4}|.)", re.DOTALL)
ESCAPED = {"t": "\t", "r": "\r", "n": "\n", "b": "\b", "f": "\f", '"': '"', "\\": "\\"}
WORDS = {"nil": None, "true": True, "false": False}
CHARACTERS = {"newline": "\n", "return": "\r", "space": " ", "tab": "\t", "formfeed": "\f", "backspace": "\b"}
ENDS = {"(": ")", "[": "]", "{": "}", "#{": "}"}
OPENS = tuple(ENDS)
TAG = object()  # stands in a stack for a tag, whose form comes next
SKIP = object()  # the same for a form that is left out


def unescaped(text: str) -> str:
    """What the text between two quotes says."""
    def one(it: "re.Match[str]") -> str:
        word = it[1]
        if word[0] == "u" and len(word) == 5:
            return chr(int(word[1:], 16))
        if word not in ESCAPED:
            raise EdnFault(f"no escape in EDN: \\{word}")
        return ESCAPED[word]
    return ESCAPE.sub(one, text) if "\\" in text else text


def atom_of(token: str) -> Any:
    """What a token says that opens and ends nothing."""
    if token in WORDS:
        return WORDS[token]
    if token[0] == '"':
        return Text(unescaped(token[1:-1]))
    if token[0] == "\\":
        return Text(CHARACTERS.get(token[1:], token[1:]))
    whole = WHOLE.fullmatch(token)
    if whole:
        return int(whole[1])
    number = OTHER_NUMBER.fullmatch(token)
    if number:
        return Decimal(number[1])
    return token if token[0] == ":" and len(token) > 1 else Symbol(token)


def closed(opener: str, forms: List[Any]) -> Any:
    """What stands between an opening and its end."""
    if opener == "#{":
        return frozenset(forms)
    if opener != "{":
        return tuple(forms)
    if len(forms) % 2:
        raise EdnFault("a map has a key without a value")
    return dict(zip(forms[::2], forms[1::2]))


def form_at(text: str, place: int) -> Tuple[Any, int]:
    """The form that begins at the place or behind blanks, and where it ends; (None, -1) where only blanks are left."""
    stack: List[Tuple[Any, List[Any]]] = []
    while True:
        place = BLANK.match(text, place).end()  # type: ignore[union-attr]
        found = TOKEN.match(text, place)
        if not found:
            if place < len(text):
                raise Unended("a text that doesn't end") if text[place] == '"' else EdnFault(f"no form: {text[place]}")
            if stack:
                raise Unended("a form that doesn't end")
            return None, -1
        token, place = found[0], found.end()
        if token in OPENS:
            if len(stack) >= DEEPEST:
                raise EdnFault("too deep")
            stack.append((token, []))
            continue
        if token == "#_" or token[0] == "#" and len(token) > 1:
            stack.append((SKIP if token == "#_" else TAG, []))
            continue
        if token in ")]}":
            if not stack or ENDS.get(stack[-1][0]) != token:
                raise EdnFault(f"{token} ends nothing")
            opener, forms = stack.pop()
            form = closed(opener, forms)
        else:
            form = atom_of(token)
        while stack and stack[-1][0] is TAG:
            stack.pop()
        if stack and stack[-1][0] is SKIP:
            stack.pop()
            continue
        if not stack:
            return form, place
        stack[-1][1].append(form)


HEAD = re.compile(r"(?:#[^\s\[\](){}\",;#]+\s*)?\{")
WORD = re.compile(r"(\[*)(?:(nil|true|false|-?(?:0|[1-9][0-9]*))|(:[^\s\[\](){}\",;\\#]+))?(\]*)")
MOST_WORDS = 200_000
READER = json.JSONDecoder()


class Words(Dict[str, str]):
    """Words of EDN with what they are in JSON, brackets at their ends among them."""

    def __missing__(self, word: str) -> str:
        parts = WORD.fullmatch(word)
        if parts is None:
            raise EdnFault(f"no plain word: {word}")
        if len(self) >= MOST_WORDS:
            self.clear()
        middle = f'"{parts[3]}"' if parts[3] else "null" if parts[2] == "nil" else parts[2] or ""
        self[word] = found = parts[1] + middle + parts[4]
        return found


WORDS_OF_JSON = Words()


def plain_map(line: str) -> Optional[Dict[Any, Any]]:
    """The map that the line is, if it is one of plain words, numbers and lists; None where it has to be read word by word."""
    head, end = HEAD.match(line), line.rstrip()
    if head is None or end[-1:] != "}":
        return None
    inner = end[head.end():-1]
    if "," in inner:
        inner = inner.replace(",", " ")
    if "(" in inner:
        inner = inner.replace("(", "[").replace(")", "]")
    try:
        text = ",".join(map(WORDS_OF_JSON.__getitem__, inner.split()))
        if "[," in text or ",]" in text:
            text = text.replace("[,", "[").replace(",]", "]")
        words = READER.decode("[" + text + "]")
    except (ValueError, RecursionError):
        return None
    return None if len(words) % 2 else dict(zip(words[::2], words[1::2]))


class Forms:
    """The forms of a text that comes line by line. Of vectors that hold the others, those that stand in them."""

    def __init__(self) -> None:
        self._open = 0
        self._begun = ""
        self._tried = 0

    def is_between(self) -> bool:
        """Whether no form is begun."""
        return not self._begun

    def take(self, line: str) -> Iterator[Any]:
        """The forms that the line ends. A long one is tried anew only once it has doubled."""
        self._begun += line
        if len(self._begun) >= 2 * self._tried:
            yield from self._ended()

    def end(self) -> Iterator[Any]:
        """The last ones."""
        yield from self._ended()
        if self._begun.strip() or self._open:
            raise Unended("a form that doesn't end")

    def _ended(self) -> Iterator[Any]:
        place = 0
        try:
            while True:
                place = BLANK.match(self._begun, place).end()  # type: ignore[union-attr]
                if self._begun.startswith("[", place):
                    self._open, place = self._open + 1, place + 1
                elif self._open and self._begun.startswith("]", place):
                    self._open, place = self._open - 1, place + 1
                else:
                    form, end = form_at(self._begun, place)
                    if end < 0:
                        break
                    place = end
                    yield form
            self._begun, self._tried = "", 0
        except Unended:
            self._begun = self._begun[place:]
            self._tried = len(self._begun)


def forms_in(lines: Iterable[str], is_passed: Callable[[str], bool] = lambda line: False) -> Iterator[Any]:
    """The forms of the lines, one by one. A line of which `is_passed` says so is given as it is, where no form is begun."""
    forms = Forms()
    for line in lines:
        if forms.is_between():
            if is_passed(line):
                yield line
                continue
            form = plain_map(line)
            if form is not None:
                yield form
                continue
        yield from forms.take(line)
    yield from forms.end()


def edn_text(form: Any) -> str:
    """The form as EDN, always the same for equal ones."""
    if form is None:
        return "nil"
    if form is True or form is False:
        return "true" if form else "false"
    if isinstance(form, Text):
        return '"' + form.text.replace("\\", "\\\\").replace('"', '\\"') + '"'
    if isinstance(form, Symbol):
        return form.name
    if isinstance(form, (tuple, list)):
        return "[" + " ".join(map(edn_text, form)) + "]"
    if isinstance(form, frozenset):
        return "#{" + " ".join(sorted(map(edn_text, form))) + "}"
    if isinstance(form, dict):
        return "{" + ", ".join(sorted(f"{edn_text(key)} {edn_text(value)}" for key, value in form.items())) + "}"
    return str(form)
