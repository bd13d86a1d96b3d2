#!/usr/bin/env python3
"""Binds the built program to what it was proved and built from: a file beside it has the sums of the program, of the sources and of the kit.

    tools/binding.py

writes it for the program as it stands. tools/build does so once all is proved, and so does the gate; tools/release takes no program that isn't
bound to the sources as they are. Whoever may write the program may write the file too: it keeps out what is stale or was put there by mistake.
`tools/release --anew` trusts neither of them.
"""
import hashlib
import os
import sys

sys.dont_write_bytecode = True
sys.path.insert(0, os.path.dirname(os.path.realpath(__file__)))
from building import KIT, PROGRAM, TOP, crates, uses  # noqa: E402 (it writes no bytecode beside itself)

# The program, and the file beside it.
BUILT = f"{TOP}/crates/{PROGRAM}/out/{PROGRAM}"
BOUND = f"{BUILT}.bound"
# What a crate is proved and built from, beside the lists of the tree.
LISTS, SOURCES = ("crates.txt", "HANDLES"), ("src", "specs", "proofs")


def sum_of(path):
    with open(path, "rb") as it:
        return hashlib.sha256(it.read()).hexdigest()


def sum_of_sources(top=TOP):
    """Returns a sum over the names and texts of all from which the program is proved and built, but for the kit."""
    found = [it for it in LISTS if os.path.exists(f"{top}/{it}")]
    for name in crates(uses()):
        for part in SOURCES:
            found += [os.path.relpath(f"{at}/{it}", top) for at, _, names in os.walk(f"{top}/crates/{name}/{part}") for it in names]
    return hashlib.sha256("".join(f"{sum_of(f'{top}/{it}')}  {it}\n" for it in sorted(found)).encode()).hexdigest()


def kit():
    """Returns what the kit calls itself, or '' where there is none."""
    try:
        with open(f"{KIT}/KIT-ID", encoding="utf-8") as it:
            return it.read().strip()
    except OSError:
        return ""


def sums():
    """Returns the rows of the file as they are now."""
    return [f"program {sum_of(BUILT)}", f"sources {sum_of_sources()}", f"kit {kit()}"]


def bind():
    with open(BOUND, "w", encoding="utf-8") as to:
        to.write("".join(f"{it}\n" for it in sums()))


def fault():
    """Returns why the program isn't the one that the sources as they are give, or None. Where there is no kit, it counts as the same."""
    try:
        with open(BOUND, encoding="utf-8") as it:
            was = it.read().splitlines()
    except OSError:
        return "nothing says from which sources the program was proved and built"
    now = sums()
    if was[:1] != now[:1]:
        return "the program isn't the one that was proved and built"
    if was[1:2] != now[1:2]:
        return "the sources aren't those from which the program was proved and built"
    if kit() and was[2:] != now[2:]:
        return "the kit isn't the one by which the program was proved and built"
    return None


if __name__ == "__main__":
    bind()
