"""What the line `masks` costs: it is left out where a certificate without it is much smaller and tells the same."""

from __future__ import annotations

from dataclasses import replace
from typing import Dict, List, NamedTuple, Optional, Sequence

from stackcheck_tools.analysis import causes, places, warnings_of_words
from stackcheck_tools.analysis.kinds import ORDINARY, SAFETY, STORES, WHOLE
from stackcheck_tools.analysis.mending import tried_from
from stackcheck_tools.analysis.questions import Search, because
from stackcheck_tools.analysis.settling import analysed, settled_own
from stackcheck_tools.analysis.state import Facts, Lists, State
from stackcheck_tools.analysis.state import told as told_of
from stackcheck_tools.analysis.widening import bound_of
from stackcheck_tools.dataflow import stored
from stackcheck_tools.firmware.elf import CODE_END
from stackcheck_tools.firmware.firmware import Firmware
from stackcheck_tools.spec.lines import Lines
from stackcheck_tools.spec.recursion import Recursion
from stackcheck_tools.spec.spec import MASKS, NOWHERE

LARGE = 2048  # bytes of code from which on it is looked whether the line is needed before it is tried
MANY = 10_000  # nodes from which on it is looked: some seconds of analysis
TIMES = 4  # as many nodes as without the line, from which on it costs too much
LANGUAGE, GIVEN = "language", "given"
WITHOUT = "a look at the analysis without it"
NEEDED = "the line `masks` may save places"
KEEPS = "the line `masks` costs little, or lowers the bound"
SAVES = "with the line `masks` there are other places or runs"
LEFT_OUT = "the line `masks` is left out: with it the analysis is {} times as large, and bound and places are the same"
KEPT = "the line `masks` makes the analysis {} times as large, and saves {} place{} to review"


class Answer(NamedTuple):
    """As much of an answer as its places are told by."""

    firmware: Firmware
    certificate: str
    own: Lines
    lists: Lists
    recursions: Sequence[Recursion]
    premises: List[str]
    causes: Dict[int, causes.Cause]
    closers: Dict[int, str]
    warnings: List[warnings_of_words.Warned]


def nodes_in(certificate: str) -> int:
    """How many nodes a certificate has."""
    return sum(line.startswith("node ") for line in certificate.splitlines())


def sort_of(kind: str) -> str:
    """By who is at fault there: the program's language, a correct program (ordinary), or the spec."""
    return "ordinary" if kind in ORDINARY else LANGUAGE if kind in (SAFETY, WHOLE) else GIVEN


def kinds_of(facts: Facts, state: State) -> Search[Dict[str, str]]:
    """The places of an answer, each with its kind."""
    told, firmware, certificate = (yield from told_of(state)), facts.firmware, state.certificate or ""
    answer = Answer(firmware, certificate, state.lines, state.lists, state.recursions, told, causes.by_word(firmware.device, told), {},
                    warnings_of_words.warnings(firmware, certificate))
    return {str(word): kind for entry in places.entries(answer) for word, kind in entry.kinds.items()}


def places_of(facts: Facts, state: State) -> Search[Dict[str, str]]:
    """The same, each with who is at fault there."""
    return {word: sort_of(kind) for word, kind in (yield from kinds_of(facts, state)).items()}


def needless(facts: Facts, state: State) -> Search[Optional[State]]:
    """A large firmware's bound without the line, if there is one and no place for want of it; else None. Then the line isn't tried: it
    makes an analysis several times as large. Where a function stores the address of a register that enables interrupts, as drivers do,
    that isn't looked at."""
    size = sum(size for address, size, _ in facts.elf.loaded if address < CODE_END)
    if not facts.device.is_first() or state.lines.has_masks() or size < LARGE or stored.numbers(facts.elf) & facts.device.enabling:
        return None
    other = yield from settled_own(facts, state.look())
    if other.certificate is None or STORES in (yield from kinds_of(facts, other)).values():
        yield from because(other.lines, state.lines, NEEDED)
        return None
    return state.adopt(other)


def lean(facts: Facts, state: State) -> Search[Optional[State]]:
    """The same lines without `masks`, where the bound is the same and the certificate much smaller."""
    lines = state.lines.drop(NOWHERE, MASKS)
    yield from because(state.lines, lines, WITHOUT)
    other = yield from analysed(facts, state.look().under(lines))
    is_same = other.certificate is not None and bound_of(other.certificate) == bound_of(state.certificate)
    if is_same and nodes_in(state.certificate or "") > TIMES * nodes_in(other.certificate or ""):
        return other
    yield from because(other.lines, state.lines, KEEPS)
    return None


def weighed(facts: Facts, state: State) -> Search[State]:
    """Leaves the line out where bound, places and trial runs are the same without it, and it costs much; else notes what it costs and
    saves."""
    nodes = nodes_in(state.certificate or "")
    if nodes <= MANY or state.lines.is_given(NOWHERE, MASKS) or not (state.lines.has_masks() and facts.device.is_first()):
        return state
    other = yield from lean(facts, state)
    if other is None:
        return state
    before, after = (yield from places_of(facts, state)), (yield from places_of(facts, other))
    times = round(nodes / nodes_in(other.certificate or ""))
    if after == before and not state.stop:
        other, _ = yield from tried_from(facts, other, 0)
        if not other.stop:
            return replace(state.adopt(other), told_of_masks=LEFT_OUT.format(times))
    yield from because(other.lines, state.lines, SAVES)
    saved = list(after.values()).count("ordinary") - list(before.values()).count("ordinary")
    return replace(state, told_of_masks=KEPT.format(times, saved, "" if saved == 1 else "s")) if saved > 0 else state
