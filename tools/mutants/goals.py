"""Tells at which goals a check refuses each function, and how surely; and which clause of a contract a goal is of."""

import collections
import re

from . import kit

# How a goal is told: there are values at which it is false; the search ended without a proof; it gave up at a limit;
# the function's own answer isn't one; only names are gone, or an invariant that the proof states has another type.
HOW = ("false", "search", "limit", "answer", "names")
# The clause that an edit breaks, as its file names it.
BREAKS = re.compile(r"(?:(ensures|safe|ends)|(requires|invariant) of (\w+(?:::\w+)*):?)(?: (\w+))?$")

Told = collections.namedtuple("Told", "goal how row")


def faults_of(said):
    """Returns the rows that tell of a fault at a place, other than that names are gone."""
    rows = [row for row in kit.joined(said) if kit.PLACED_ROW.match(row) and kit.is_error(row)]
    return [row for row in rows if not kit.is_of_names(row)]


def told_at(place, row):
    """Returns what a row with a place tells of a goal."""
    if kit.is_note(row):
        goal = kit.GOAL_OF_NOTE.search(row)
        how = "false" if kit.FALSE_AT_VALUES in row else "limit" if kit.AT_A_LIMIT in row else "search"
    else:
        goal = kit.GOAL_OF_ERROR.search(row)
        how = "names" if kit.is_of_names(row) or place.endswith("Invariants.antt") else "answer"
    return Told(goal[1] if goal else "", how, row)


def told_in(said, owner, outermost):
    """Returns by function what a check told of its goals, the surest first. 'owner' gives the function that a place
    belongs to, if it is one."""
    found = {}
    for row in kit.joined(said):
        at, searched = kit.PLACED_ROW.match(row), kit.SEARCH_ROW.match(row)
        if searched:
            goals = re.findall(r"`([^`]+)`", searched[2])
            found.setdefault(outermost(searched[1]), []).extend(Told(goal, "search", row) for goal in goals)
        elif at and kit.is_error(row):
            function = owner(at[1], int(at[2]))
            if function:
                found.setdefault(function, []).append(told_at(at[1], row))
    found = {function: surest_first(told) for function, told in found.items()}
    return {function: told for function, told in found.items() if told}


def surest_first(told):
    """Returns what was told of a function by how sure it is. What the search says of a goal a note says more
    closely."""
    noted = {it.goal for it in told if kit.is_note(it.row)}
    is_said_twice = lambda it: not kit.is_note(it.row) and it.how == "search" and it.goal in noted
    left = [it for it in told if it.goal != kit.NO_OFFER and not is_said_twice(it)]
    return sorted(left, key=lambda it: HOW.index(it.how))


def kind_of(goal):
    """Returns what a goal is of: a clause of the contract, a callee's requires, an invariant of a type, a loop's
    invariant or measure, or that the function is safe; none for what a proof states by itself."""
    if goal == "returns" or goal.startswith("returns-"):
        return "ensures"
    if re.search(r"-requires(-|$)", goal):
        return "requires"
    if goal.startswith("invariant_of-"):
        return "invariant"
    if re.match(r"(overflow_\w+|nonzero_\w+|bounds|slice_bounds|offset_bounds)-", goal):
        return "safe"
    if re.search(r"(^|-)(init|preserved)(-|$)", goal):
        return "loop"
    return "ends" if re.search(r"-smaller(-|$)", goal) else None


def clause_of(goal):
    """Returns the name of the clause that a goal is of, where it has one."""
    return re.sub(r"-\d+$", "", goal.rpartition("-clause-")[2]) if "-clause-" in goal else ""


def goes_with(breaks, goal):
    """Returns whether an edit that breaks this clause can be refused at that goal, which may be of all clauses. What
    holds behind a loop is held by its invariant."""
    said = BREAKS.match(breaks)
    if not said:
        return False
    kind, name = said[2] or said[1], said[4] or ""
    if kind_of(goal) == "loop":
        return kind in ("ensures", "requires", "invariant")
    if kind_of(goal) != kind or name and clause_of(goal) not in ("", name):
        return False
    callee = said[3].rpartition("::")[2] if kind == "requires" else ""
    return bool(re.search(rf"(^|-){callee}(-|$)", goal.partition("-requires")[0])) if callee else True


def goals_told(facts):
    """Returns the goals at which an edit was refused, each once, with what is told of it."""
    words = {"false": "false at some values", "search": "no proof found", "limit": "no proof found within the limits"}
    words |= {"answer": "its own answer is none", "names": "its own answer names what is gone"}
    goals = {}
    for it in facts:
        goals.setdefault(it.goal, words[it.how])
    by_how = {}
    for goal, how in goals.items():
        by_how.setdefault(how, []).append(goal or "(a part of the proof)")
    return "; ".join(f"{', '.join(names)} ({how})" for how, names in by_how.items()) or "no goal"
