"""The kinds of places at which a step may be flagged, by who is at fault there, and how many of each an answer has."""

from __future__ import annotations

from typing import TYPE_CHECKING, Dict, Iterable

from stackcheck_tools.firmware.fuses import FUSES
from stackcheck_tools.spec.recursion import BY_RUNS, PLACE

if TYPE_CHECKING:
    from stackcheck_tools.analysis.outcome import Accepted

# a correct program may be flagged there
CALLS, STORES, VECTORS, CORES, MOVES, UNSET = "calls", "stores", "vectors", "cores", "moves", "unset"
SAFETY, WHOLE = "memory safety", "whole lists"  # only a program with undefined behaviour is
UNUSED = "unused units"  # a vector of a unit of which the firmware writes no register
GIVEN = "given"  # the spec says itself what happens there
ORDINARY = (CALLS, STORES, VECTORS, CORES, MOVES, UNSET, FUSES, BY_RUNS)
ORDER = (*ORDINARY, SAFETY, WHOLE, UNUSED, GIVEN, PLACE)


def counts(outcome: Accepted) -> Dict[str, int]:
    """How many places of each kind there are."""
    found: Dict[str, int] = {}
    for entry in outcome.entries:
        for kind in entry.kinds.values():
            found[kind] = found.get(kind, 0) + 1
    return found


def count_of(outcome: Accepted, kinds: Iterable[str]) -> int:
    """How many places are of these kinds."""
    found = counts(outcome)
    return sum(found.get(it, 0) for it in kinds)


def moving(outcome: Accepted) -> str:
    """The register whose writes may move the vectors."""
    device = outcome.firmware.device
    return device.moving.registers[0] if device.moving else ""


def core(outcome: Accepted, pointer: str = "SP", link: str = "and") -> str:
    """The registers of the core, in words; the stack pointer by a name."""
    *first, last = [it for it in ("SREG", pointer, *outcome.firmware.device.banks, moving(outcome)) if it]
    return f"{', '.join(first)} {link} {last}"
