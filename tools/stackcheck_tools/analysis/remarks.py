"""The findings that make no status: what a bound does not count, and lines of the spec without effect."""

from __future__ import annotations

from typing import TYPE_CHECKING, Iterator, List, Optional

from stackcheck_tools.analysis import warnings_of_words
from stackcheck_tools.analysis.telling import line_of_spec
from stackcheck_tools.finding import NOTE, WARNING, Finding, Location
from stackcheck_tools.spec.lines import Lines
from stackcheck_tools.spec.spec import Keep

if TYPE_CHECKING:
    from stackcheck_tools.analysis.outcome import Accepted

def heap(outcome: Accepted) -> Iterator[Finding]:
    name = warnings_of_words.heap(outcome.firmware.elf)
    if name:
        yield Finding("SB501", WARNING, f"{name} is linked: the heap takes from the same room and is not counted",
                      (Location(function=name),))


def idle(path: Optional[str], keeps: List[Keep]) -> Iterator[Finding]:
    """Yields the `keeps` lines that review no place."""
    for it in keeps:
        yield Finding("SB504", WARNING, f"no place is reviewed by: keeps {it.name}{it.end()}", (Location(path, it.number),))


def narrower(outcome: Accepted) -> Iterator[Finding]:
    """Yields the lower bound that was found before the lists of calls were complete, and the lines of a spec that claim it."""
    firmware, lists, lines = outcome.firmware, outcome.lists, outcome.own
    if lists.bound is None:
        return
    told = []
    for site, words in sorted(lists.narrower.items()):
        less = Lines(firmware.device).put(site, "jump", words)
        if words != lines.of(site, "jump"):
            told.append(line_of_spec(firmware, less, site, "jump") or less.line(site, "jump"))
    these = "this line" if len(told) == 1 else "these lines"
    yield Finding("SB506", NOTE, f"bound {lists.bound} if fewer functions are called through pointers, as {these} of a spec would claim",
                  spec_lines=tuple(told))


def findings(outcome: Accepted, path: Optional[str]) -> Iterator[Finding]:
    """Yields all of one call, whose spec lies at a path."""
    yield from heap(outcome)
    if outcome.firmware.lost:
        yield Finding("SB502", NOTE, outcome.firmware.lost)
    yield from idle(path, outcome.idle_keeps)
    if outcome.told_of_masks:
        yield Finding("SB505", NOTE, outcome.told_of_masks)
    yield from narrower(outcome)
