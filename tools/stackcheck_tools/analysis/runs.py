"""Runs of a firmware on the simulator of `stackbound`, as values, and what comes of one."""

from __future__ import annotations

import re
from typing import NamedTuple, Optional, Tuple

from stackcheck_tools.analysis.program import OK, SCHEDULE

STOP = re.compile(r"steps (\d+) depth (\d+) stop (\w+)(?: ([0-9A-F]{4,5}))?(?: ([0-9A-F]{4,5}))?")
ILLEGAL = "schedule illegal step "
FLAGGED = ("live", "protected", "transfer", "moved")
NO_OTHER = -1  # no address and no target


class Stop(NamedTuple):
    """A flagged step: its kind, its word, and the address or target where it has one."""

    kind: str
    word: int
    other: int = NO_OTHER

    def has_other(self) -> bool:
        return self.other != NO_OTHER


class Run(NamedTuple):
    """A run as it can be done again: the command of `stackbound`, its file's text and the options behind it."""

    command: str
    text: str
    options: Tuple[str, ...] = ()


class Ran(NamedTuple):
    """What came of a run: how deep it went before a flagged step (None where it was none), that step, and the number of a schedule's step
    that isn't legal."""

    depth: Optional[int] = None
    stop: Optional[Stop] = None
    illegal: Optional[int] = None


def ran(status: int, text: str) -> Ran:
    """What the program's answer to a run says."""
    if status == SCHEDULE and text.startswith(ILLEGAL):
        return Ran(illegal=int(text.split()[3]))
    found = STOP.match(text) if status == OK else None
    if not found:
        return Ran()
    if found[3] not in FLAGGED:
        return Ran(int(found[2]))
    return Ran(int(found[2]), Stop(found[3], int(found[4], 16), int(found[5], 16) if found[5] else NO_OTHER))
