"""The files that write lines in C, C++ and Java, with hostile keys: what is no key is refused before a byte is written, each other line is what
JSON and the checker take it for, and no line is ever there in part."""
import json
import os
import random
import resource
import signal
import subprocess
from pathlib import Path

import runs
import servers

MOST = 2 ** 64 - 1
# As UTF-16 where half a surrogate pair stands alone, else as they are.
TEXTS = ("x", '"', "\\", '\\"', "\n", "\r\t\b\f", "\0", "\x1f", "\x7f", "é", "€", "😀", "\u2028", "\ufeff", "\uffff", "</script>", " ", "a" * 128,
         "a" * 129, "é" * 64, "é" * 65, "😀" * 32, "😀" * 33, "", "\ud800", "\udfff", "x\udc00", "\ud83dx", "{}[],:", "k\\u0041", "\U0010ffff", "'",
         "%s%n", "null")
BYTES = (b"\xff", b"\x80", b"\xc3", b"\xc0\x80", b"\xc1\xbf", b"\xe0\x80\x80", b"\xe2\x82", b"\xed\xa0\x80", b"\xf0\x80\x80\x80", b"\xf4\x90\x80\x80",
         b"\xf5\x80\x80\x80", b"\xf8\x88\x80\x80\x80", b"a\xfe", b"\xe2\x28\xa1", b"\xf0\x9f\x98")


class Language:
    """The file of one language: how its program is made and begun, and how keys are told to it."""

    def __init__(self, engine, words, begin, is_wide):
        self.engine, self.begin, self.is_wide = engine, begin, is_wide
        self.words = words

    def make(self):
        self.engine.run(*self.words)

    def keys(self):
        """Lists of keys as the program reads them, and what each is as bytes, or None where it is no key."""
        chance = random.Random(3)
        wide = [text.encode("utf-16-be", "surrogatepass") for text in TEXTS]
        drawn = [bytes(chance.randrange(256) for _ in range(2 * chance.randint(1, 4))) for _ in range(300)]
        plain = [text.encode("utf-8", "surrogatepass") for text in TEXTS] + list(BYTES)
        return [[it] for it in (wide if self.is_wide else plain) + drawn]

    def bytes_of(self, key):
        try:
            text = key.decode("utf-16-be" if self.is_wide else "utf-8")
        except UnicodeDecodeError:
            return None
        size = len(text.encode("utf-8"))
        return text if 1 <= size <= 128 else None

    def run(self, rows, output, mode, limit=None):
        """The numbers that were refused."""
        def prepare():
            signal.signal(signal.SIGXFSZ, signal.SIG_IGN)
            if limit is not None:
                resource.setrlimit(resource.RLIMIT_FSIZE, (limit, limit))
        servers.STARTED.go_on()
        given = "".join(",".join(key.hex() for key in row) + "\n" for row in rows)
        done = subprocess.run([*map(str, self.begin), mode], input=given, stdout=output, stderr=subprocess.PIPE, text=True, check=False,
                              timeout=servers.PATIENCE, env=self.engine.variables, cwd=self.engine.room, preexec_fn=prepare, **self.engine.as_user())
        if done.returncode != 0:
            raise servers.Missed(f"ended with {done.returncode}: {done.stderr[-500:]}")
        return {int(line) for line in done.stderr.split()}

    def expected(self, rows):
        """By number: the line as an object, of those that are lines."""
        lines = {}
        for number, row in enumerate(rows, 1):
            keys = [self.bytes_of(key) for key in row]
            if None not in keys and 2 * len(keys) <= 4096:
                ops = [op for key in keys for op in (["r", key, None], ["w", key, MOST - number])]
                lines[number] = {"do": "txn", "id": number, "start": 2 * number, "status": "committed", "commit": 2 * number + 1, "ops": ops}
        return lines

    def hold(self, text, refused, rows, expected, why):
        """Holds what was written to what should have been."""
        written = [json.loads(line.decode("utf-8")) for line in text.splitlines(keepends=True) if line.endswith(b"\n") or self.torn(why)]
        if written != list(expected.values()) or refused != set(range(1, len(rows) + 1)) - set(expected):
            raise servers.Missed(f"{why}: other lines than there should be: {len(written)} and not {len(expected)}, {len(refused)} refused")

    @staticmethod
    def torn(why):
        raise servers.Missed(f"{why}: a line is there in part")


def test(program, language):
    """What is told of the file of that language."""
    language.make()
    room = language.engine.room
    rows = language.keys()
    path = room / "hostile.jsonl"
    with open(path, "wb") as output:
        refused = language.run(rows, output, "file")
    language.hold(path.read_bytes(), refused, rows, language.expected(rows), "hostile keys")
    status, answer = runs.check(program, path)
    if status != 0 or " refused=0 " not in answer:
        raise servers.Missed(f"the checker's status is {status}: {answer[-300:]}")
    cuts = test_cuts(language, room)
    test_pipe(language)
    return f"{len(language.expected(rows))} of {len(rows)} keys are written, cut off at {cuts} places"


def key(language, text):
    return text.encode("utf-16-be" if language.is_wide else "utf-8")


def test_cuts(language, room):
    """A file that may not grow beyond some place holds the lines that fit, and each other one was refused."""
    rows = [[key(language, "x" * length)] for length in (5, 100, 9, 3)]
    lines = language.expected(rows)
    sizes = {number: len(json.dumps(line, separators=(",", ":"))) + 1 for number, line in lines.items()}
    limits = (0, 1, 50, 90, 91, 150, 250, 300, 330, 400)
    for limit in limits:
        path, left, fit = room / "cut.jsonl", limit, {}
        for number, size in sizes.items():
            if size <= left:
                fit[number] = lines[number]
                left -= size
        with open(path, "wb") as output:
            refused = language.run(rows, output, "file", limit)
        language.hold(path.read_bytes(), refused, rows, fit, f"a file of at most {limit} bytes")
    return len(limits)


def exact(language, size):
    """Keys whose line takes just so many bytes, with its line feed."""
    row = [key(language, "x" * 100)] * 16
    for length in range(1, 129):
        whole = [*row, key(language, "y" * length)]
        if len(json.dumps(language.expected([[key(language, "z")], whole])[2], separators=(",", ":"))) + 1 == size:
            return whole
    raise servers.Missed(f"no line has {size} bytes")


def test_pipe(language):
    """A line that a pipe doesn't take at once is refused, and so is a transaction of more operations than there may be."""
    longest = exact(language, 4096)
    rows = [longest, exact(language, 4098), [key(language, "y")]]
    reading, writing = os.pipe()
    with os.fdopen(reading, "rb") as end:
        with os.fdopen(writing, "wb") as output:
            refused = language.run(rows, output, "pipe")
        lines = {number: line for number, line in language.expected(rows).items() if number != 2}
        language.hold(end.read(), refused, rows, lines, "a pipe")
    many = [[key(language, "x")] * 2048, [key(language, "x")] * 2049]
    path = language.engine.room / "many.jsonl"
    with open(path, "wb") as output:
        refused = language.run(many, output, "file")
    language.hold(path.read_bytes(), refused, many, language.expected(many), "many operations")


def languages(engines):
    """Those of the engines that are run."""
    for engine in engines:
        here, examples, room = engine.tree / "engines", engine.tree / "examples", Path(engine.room)
        if isinstance(engine, servers.Bdb):
            yield Language(engine, ["cc", "-O1", "-Wall", "-Wextra", "-Werror", "-Wno-unused-function", "-I", examples / "bdb", "-o", room / "hostile",
                                    here / "hostile.c", "-lpthread"], [room / "hostile"], False)
        elif isinstance(engine, servers.Rocksdb):
            yield Language(engine, ["g++", "-std=c++17", "-O1", "-Wall", "-Wextra", "-Werror", "-I", examples / "rocksdb", "-o", room / "hostile",
                                    here / "hostile.cc"], [room / "hostile"], False)
        elif isinstance(engine, servers.H2):
            yield Language(engine, ["javac", "-J-XX:-UsePerfData", "-Xlint:all", "-Werror", "-cp", room, "-d", room, here / "Hostile.java"],
                           ["java", "-XX:TieredStopAtLevel=1", "-XX:-UsePerfData", "-cp", room, "Hostile"], True)
