"""Tells how long a build still takes: from what it has done so far, beside what its crates took where they were measured."""
import math

# So many seconds of a build weigh as much as what was measured: in its first minute a build tells little of its pace.
KNOWN = 30
# What is left of a crate that has run nearly as long as it should, as a part of the whole. One that is late is taken to last so much longer
# as it is late already.
LEAST = 0.25
# The pace and what is left of the crates on their way go by each other; so many rounds bring them together.
ROUNDS = 8


def part_left(gone):
    """Returns which part of a crate is left, where so many of its seconds have gone, as a part of those that it should take."""
    return max(1 - gone, LEAST + max(0, gone - 1))


def measured_left(needs, whole, work, lanes, part):
    """Returns how many seconds the build would still take where it was measured: the longest chain of crates that wait for each other, or
    all work on all processors, whichever is longer. `part` has which part of each crate is left."""
    ends = {}

    def end(name):
        if name not in ends:
            ends[name] = whole[name] * part[name] + max((end(it) for it in needs if name in needs[it]), default=0)
        return ends[name]

    return max([sum(work[it] * part[it] for it in needs) / lanes, *map(end, needs)])


def seconds_left(needs, whole, work, lanes, done, running, elapsed):
    """Returns how many seconds a build still takes that began so many seconds ago.

    needs    of each of its crates those that it waits for
    whole    how many seconds each took where it was measured, with all processors for itself
    work     how many of processor time
    lanes    how many processors there are
    done     the crates that are built
    running  of each that is on its way, for how many seconds it is, and how many it should take with the processes that it has
    """
    part = {it: 0.0 if it in done else 1.0 for it in needs}
    everything = measured_left(needs, whole, work, lanes, dict.fromkeys(needs, 1.0))

    def pace_where(left):
        return (elapsed + KNOWN) / (max(0.0, everything - left) + KNOWN)

    # (that it goes faster than it was measured is believed of what is done alone: those on their way take processors from each other)
    least = min(1.0, pace_where(measured_left(needs, whole, work, lanes, part)))
    pace = 1.0
    for _ in range(ROUNDS):
        part.update({it: part_left(ran / (pace * should)) for it, (ran, should) in running.items()})
        pace = max(least, pace_where(measured_left(needs, whole, work, lanes, part)))
    return pace * measured_left(needs, whole, work, lanes, part)


def told(seconds):
    """Returns the words for so many seconds that are left: no more precisely than is known, and rather too many than too few."""
    minutes = math.ceil(seconds / 60)
    if minutes <= 2:
        return "a minute or two left"
    return f"some {minutes if minutes <= 10 else 5 * math.ceil(minutes / 5)} minutes left"
