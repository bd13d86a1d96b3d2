"""Holds what the tester of wrong bodies knows of the kit's insides. No other module of this folder calls the kit or has a
pattern of what it prints, so that a new kit is met here.

Of the command `rt`, which is loaded as a module, since an edit has to be read and judged here just as `rt must-fail`
and `rt ci` do:

    read_edit             what an edit makes of the files, or why it can't be applied
    checked               a check of a whole crate with such files; it is made to keep what the check said
    must_fail             whether a crate with an edit is refused
    unread                whether a row of a check says that a text couldn't be read
    read_files            what crates.txt doesn't say of a program; `Crate` is made to call it, as `rt ci` does
    processors, free      how many checks there is room for

Of its `rtlib.py`, since a batch is checked in a folder of its own, with the words that `rt check` would give:

    Crate                 name, folder, words, below, count
    crates_below          the crates of a tree, lowest first
    guarded               what has a check end with this command
    PARTS, RATTLE         the parts of a crate, and the program `rattle`

Of the program `rattle`, since no command of the kit proves some functions of a crate over holes for the others:

    check                 the options --jobs, --allow-holes, --margin (half counts) and --only; the status 1 where a
                          function is refused, and 2 where there is no function of a name
    fmt --tokens          a row for each word: its line, its start, its end, its kind and its text
    proofs/               where Answers, Invariants and Proof of a function stand, and how these name its Statement and
                          its Goals (rooms, copies)

Of what these print: the patterns below, by which verdicts are read off. Only what a goal's name says is told by
goals.kind_of."""

import contextlib
import importlib.machinery
import importlib.util
import os
import re
import shutil
import subprocess
import sys
import tempfile
import threading

# What a check says of a function.
FUNCTION_ROW = re.compile(r"^fn (\S+): (.*)", re.M)
# What it says so of one that has no fault of its own, with holes in the crate.
NO_FAULT = re.compile(
    r"(no holes|depends on a hole in `[^`]*LeftOut\.anything`(; .*)?"
    r"|(no proof: |not proved; )(in `[^`]*`, of this cycle of calls: )?it calls .*"
    r"|no proof: the borrow checker's part .* which has no proof.*)$"
)
# What it says of a function whose goals it has all looked at: what one calls that isn't proved may have kept the search
# from them.
ALL_GOALS_SHOWN = re.compile(r"(no holes|depends on a hole in `[^`]*LeftOut\.anything`)$")
# A function that is only not proved since it stands on what is refused.
STANDS_ON_REFUSED = re.compile(r"not proved; it stands on (.*), which antt refuses")
# The last row of a check that came to its end.
LAST_ROW = re.compile(r"^(holes=\d+|only=\d+ holes=\d+)\s*\Z", re.M)
# No function has the name that --only has.
NO_SUCH_FUNCTION = re.compile(r"error: `\w+` has (?:no function|several functions)[^`]*`([^`]+)`")
# Several functions have the name that --only has, and these are their paths.
SEVERAL_FUNCTIONS = re.compile(r"error: several functions are named `([^`]+)`: help: write one of (.*)")
# A row with a place, and one of the front end, which stopped before the prover read anything.
PLACED_ROW = re.compile(r"(?:note: )?(?:\./)?((?:src|proofs)/\S+?):(\d+):\d+: (.*)", re.S)
FRONT_END_PLACE = re.compile(r"--> (src/\S+?):(\d+)()")
# Goals that the search didn't prove: of a function, and in a row with a place.
SEARCH_ROW = re.compile(r"fn (\S+): .*?search` did not prove ((?:`[^`]+`(?:, | and )?)+)")
GOAL_OF_ERROR = re.compile(r"error: `([^`]+)`: ")
GOAL_OF_NOTE = re.compile(r"\(`([^`]+)`\)")
# A note of a goal that is false at some values, and of one at which the search gave up.
FALSE_AT_VALUES = "allow values at which"
AT_A_LIMIT = "gave up at one of its limits"
# The name of the goal that there isn't, whose answer keeps a check from offering proofs (rooms).
NO_OFFER = "no-offer"
# An error that only says that a name is gone, or that what it cites wasn't admitted: it tells nothing of the function
# itself. So does that of the answer which is added so that no proof is offered.
NAMES_GONE = re.compile(
    rf"has no field|is not in scope|has no `|has no function|(was|is) not admitted|error: `{NO_OFFER}`"
)
# A module, a record or a type whose printed name has no end, since its row was cut.
CUT_NAME = re.compile(r"error: (`[^`]*`: )*(module|record|data type) `[^`]*$")
# How `must_fail` says that a proof file names what the edit took away, and nothing else refuses it.
ONLY_NAMES_GONE = "only because a proof file names"
# A crate that `rt ci` has proved.
PROVED_CRATE = re.compile(r"^rt: (\w+) (?:proved$|is kept: )", re.M)

# Starts a command on this one processor, where it isn't -1: with more of them the front end takes more processor time
# for the same work.
ON_ONE_PROCESSOR = [
    sys.executable,
    "-ISc",
    "import os, sys; at, *words = sys.argv[1:]; int(at) < 0 or os.sched_setaffinity(0, {int(at)}); "
    "os.execvp(words[0], words)",
]


def joined(said):
    """Returns the rows of what a check said, each with the rows that go on with it: a long one is broken, and the
    others explain it."""
    found = []
    for row in said.split("\n"):
        if row.startswith("  ") and found and PLACED_ROW.match(found[-1]):
            found[-1] += " " + row.strip()
        else:
            found.append(row)
    return found


def is_note(row):
    return row.startswith("note: ")


def is_error(row):
    return ": error" in row.split("`")[0] or is_note(row) and "not proved" in row


def is_of_names(row):
    """Returns whether an error says no more than that names are gone."""
    return bool(NAMES_GONE.search(row) or CUT_NAME.search(row))


def load_rt():
    """Returns the kit's command as a module."""
    path = os.path.realpath(shutil.which("rt") or sys.exit("wrong_bodies: the kit's command rt isn't on the path"))
    loader = importlib.machinery.SourceFileLoader("rt_of_the_kit", path)
    made = importlib.util.module_from_spec(importlib.util.spec_from_loader("rt_of_the_kit", loader))
    sys.modules["rt_of_the_kit"] = made
    loader.exec_module(made)
    return made


rt = load_rt()
PARTS = rt.rtlib.PARTS
processors, free, unread, crates_below = rt.processors, rt.free, rt.unread, rt.rtlib.crates_below
# What the last check of a whole crate said, in each thread.
LAST_CHECK = threading.local()


def version():
    """Returns the line that names the kit."""
    return subprocess.run(["rt", "version"], capture_output=True, text=True, check=False).stdout.strip()


def prepare():
    """Has the kit read all files of a crate where it is made, and keep what a check of a whole crate said."""
    make_crate, check_crate = rt.rtlib.Crate.__init__, rt.checked

    def make(self, *given, **named):
        make_crate(self, *given, **named)
        rt.read_files(self)

    def check(*given, **named):
        LAST_CHECK.ran = check_crate(*given, **named)
        return LAST_CHECK.ran

    rt.rtlib.Crate.__init__, rt.checked = make, check
    # (its first call sets a signal's handler, which only the main thread may)
    rt.rtlib.guarded()


def code_words(file):
    """Returns the line, the start, the end and the text of each word of the file that is code, by the kit's own
    lexer."""
    ran = subprocess.run([rt.rtlib.RATTLE, "fmt", "--tokens", file], capture_output=True, text=True, errors="replace")
    rows = (row.split(" ", 4) for row in ran.stdout.split("\n")[1:])
    return [(int(row[0]), int(row[1]), int(row[2]), row[4][1:-1]) for row in rows if len(row) == 5 and row[3] == "Code"]


@contextlib.contextmanager
def in_a_file(edit):
    """Gives the edit a file of its own, which the kit reads, for as long."""
    with tempfile.TemporaryDirectory(prefix="wrong-bodies-") as room:
        path = f"{room}/{edit.name}"
        with open(path, "w", encoding="utf-8") as file:
            file.write(edit.text)
        yield path


def read_edit(edit, folder):
    """Returns the texts of the files that the edit changes in the crate of this folder, or why it can't be applied."""
    with in_a_file(edit) as path:
        return rt.read_edit(path, folder)


def try_edit(crate, edit):
    """Returns what a try of the whole crate with the edit came to ('refused', 'limit' or another word), what is said of
    it, and what the check printed, where there was one."""
    LAST_CHECK.ran = None
    with in_a_file(edit) as path:
        came_to, text = rt.must_fail(crate, path, ["--jobs", "1"])
    # (an older kit says by a truth value whether it is refused, and a newer one by a word that is true whatever it
    # says)
    came_to = "refused" if came_to is True else came_to
    return came_to, text.partition(": ")[2], LAST_CHECK.ran and LAST_CHECK.ran.stdout


def only(crate, printed_paths):
    """Returns the options that have a check prove these functions alone."""
    return [word for path in printed_paths for word in ("--only", path.removeprefix(crate.name + "::"))]


def check_crate(crate, texts, printed_paths):
    """Checks these functions in the crate with these texts in place of its own, with no holes."""
    return rt.checked(crate, texts, ["--jobs", "1", *only(crate, printed_paths)], None)


def check_room(crate, room, printed_paths, has_half_counts, processor):
    """Checks these functions in a copy of the crate, where others may have holes."""
    halves = ["--margin"] if has_half_counts else []
    words = crate.words(["--jobs", "1", "--allow-holes", *halves, *only(crate, printed_paths)], keeps=False)
    how = {"cwd": room, "stdin": subprocess.DEVNULL, "stdout": subprocess.PIPE, "stderr": subprocess.STDOUT}
    ran = [*rt.rtlib.guarded(), *ON_ONE_PROCESSOR, str(processor), rt.rtlib.RATTLE, "check", *words]
    return subprocess.run(ran, **how, errors="replace")
