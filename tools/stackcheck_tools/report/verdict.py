"""For which runs a bound holds, in words."""

from __future__ import annotations

from typing import Optional

from stackcheck_tools.analysis.kinds import (
    CALLS,
    CORES,
    GIVEN,
    MOVES,
    ORDINARY,
    SAFETY,
    STORES,
    UNSET,
    VECTORS,
    WHOLE,
    core,
    count_of,
    moving,
)
from stackcheck_tools.analysis.outcome import Accepted
from stackcheck_tools.firmware import fuses
from stackcheck_tools.spec import recursion

CONDITIONS = {
    CALLS: ("{} call{s} below {stay} within {its} list{s}", "stays", "stay", "its", "their"),
    STORES: ("{} store{s} below {stay} clear of the registers that enable interrupts", "stays", "stay", "", ""),
    VECTORS: ("{} vector{s} without a handler {stay} off", "stays", "stay", "", ""),
    CORES: ("{} store{s} below {stay} clear of {core}", "stays", "stay", "", ""),
    MOVES: ("{} write{s} of {moving} below {stay} the vectors where they are", "leaves", "leave", "", ""),
    UNSET: ("the chip starts with SP at {last:04X}", "", "", "", ""),
    fuses.FUSES: (fuses.CONDITION, "", "", "", ""),
}


def condition(outcome: Accepted, kind: str, count: int) -> str:
    text, one, many, its, their = CONDITIONS[kind]
    is_one = count == 1
    return text.format(count, s="" if is_one else "s", stay=one if is_one else many, its=its if is_one else their, moving=moving(outcome),
                       core=core(outcome),
                       last=outcome.firmware.device.last)


def of_language(outcome: Accepted) -> Optional[str]:
    """What a program without undefined behaviour keeps to at the places that ask for it; None where there are none. With the line
    `masks` a store there may still enable a vector without a handler."""
    stores, calls = count_of(outcome, (SAFETY,)), count_of(outcome, (WHOLE,))
    if not stores and not calls:
        return None
    more = " and enable no vector without a handler" if any(it.may_enable for it in outcome.entries) else ""
    text = "pointers, none made from a number, keep to their objects and functions" if stores and calls else \
        "pointer stores, none through a number, stay inside their objects" if stores else "pointer calls enter functions whose address is taken"
    return f"{text}{more} ({stores + calls} place{'' if stores + calls == 1 else 's'})"


def holds(outcome: Accepted) -> str:
    """Of which runs the bound holds."""
    conditions = [*recursion.conditions(outcome.recursions),
                  *(condition(outcome, kind, count) for kind in ORDINARY if kind in CONDITIONS and (count := count_of(outcome, (kind,)))),
                  *recursion.conditions_by_runs(outcome.recursions)]
    language = of_language(outcome)
    given = " that keeps to the lines of the spec" if count_of(outcome, (GIVEN,)) else ""
    if conditions:
        text = "if " + " and ".join(conditions) + (f", and {language}" if language else "") + (", for every run" + given if given else "")
    else:
        text = f"holds for every run{given}" + (f"{' and' if given else ''} whose {language}" if language else "")
    places = [it for it in outcome.entries if set(it.kinds.values()) - {recursion.PLACE}]
    judged = [it for it in places if it.judged]
    if judged:
        text += "; all reviewed" if len(judged) == len(places) else f"; {len(judged)} of {len(places)} entries reviewed"
    return text
