"""What goes wrong: in a log that is written, and in a check."""
from typing import TYPE_CHECKING

if TYPE_CHECKING:
    from .reports import Report


MOST_SHOWN = 200  # letters of what was given wrongly


def shown(it: object) -> str:
    """What was given wrongly, for the message that says so. Python may refuse to write it, as a number of 5,000 digits."""
    try:
        text = repr(it)
    except Exception:
        return f"something of the type {type(it).__name__}"
    return text if len(text) <= MOST_SHOWN else text[:MOST_SHOWN] + ".."


class LogError(ValueError):
    """What docs/FORMAT.md forbids, or what would make the log untrue. It is raised before a line is written."""


class CheckFailed(RuntimeError):
    """The check couldn't be made: the program isn't there, ended with a fault, or wrote what is no answer."""


class NotPassed(AssertionError):
    """The report isn't one of a run that passed. `report` has it."""

    def __init__(self, message: str, report: "Report") -> None:
        super().__init__(message)
        self.report = report


class Violation(NotPassed):
    """Snapshot isolation is violated: the status would be 20."""


class Undecided(NotPassed):
    """Nothing is violated, but a read or a line can't be judged, or less was judged than was expected: the status would be 10."""


class Unproved(NotPassed):
    """Nothing was found, but by a build of the program that isn't proved."""
