"""Holds what the two builds of the program share: tools/build, which proves it, and tools/build_unproved."""
import os
import shutil

TOP = os.path.dirname(os.path.dirname(os.path.realpath(__file__)))
PROGRAM = "sicheck"
# Where the kit stands, or '' where there is none.
KIT = os.path.dirname(os.path.dirname(os.path.realpath(shutil.which("rt") or "/")))
# The kit's own C code below its libraries, with which the program is linked.
BELOW = ("libos_c.a", "liblibc_c.a")


def uses():
    """Returns of each crate of this repository the libraries that it uses, the kit's and its own."""
    found = {}
    with open(f"{TOP}/crates.txt", encoding="utf-8") as it:
        for row in it:
            name, colon, words = row.partition("#")[0].partition(":")
            if colon:
                found[name.split()[0]] = words.split()
    return found


def crates(used):
    """Returns each crate that the program stands on, with those of this repository that it stands on itself, lowest first, and the program."""
    found = {}

    def visit(name):
        if name in used and name not in found:
            below = [it for it in used[name] if it in used]
            for it in below:
                visit(it)
            found[name] = below

    visit(PROGRAM)
    return found
