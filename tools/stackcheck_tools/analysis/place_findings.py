"""The findings of the places at which a step may be flagged: one for each entry."""

from __future__ import annotations

from typing import TYPE_CHECKING, Iterator, List, Optional, Tuple

from stackcheck_tools.analysis import refusals
from stackcheck_tools.analysis.kinds import (
    CALLS,
    CORES,
    GIVEN,
    MOVES,
    SAFETY,
    STORES,
    UNSET,
    UNUSED,
    VECTORS,
    WHOLE,
    core,
)
from stackcheck_tools.analysis.locations import of_word, of_words
from stackcheck_tools.finding import ERROR, MEMORY_SAFETY, NOTE, ORDINARY, SPEC, WARNING, Finding, Location, Related, Review
from stackcheck_tools.firmware import fuses
from stackcheck_tools.spec import recursion

if TYPE_CHECKING:
    from stackcheck_tools.analysis.outcome import Accepted
    from stackcheck_tools.analysis.places import Place

MOST_ENABLERS = 8
BY_RUNS, MAY_ENABLE = "SB308", "SB323"
# the kinds of places in the order in which one names the rule of an entry that has several
RULES = {CALLS: "SB301", STORES: "SB302", VECTORS: "SB303", CORES: "SB304", MOVES: "SB305", UNSET: "SB306", fuses.FUSES: "SB307",
         recursion.BY_RUNS: BY_RUNS, SAFETY: "SB321", WHOLE: "SB322", UNUSED: "SB324", GIVEN: "SB341", recursion.PLACE: "SB342"}
KINDS = {"SB30": ORDINARY, "SB32": MEMORY_SAFETY, "SB34": SPEC}
MESSAGES = {
    "SB301": "a call or jump through a pointer {where} may leave its list",
    "SB302": "a store {where} may enable an interrupt that the bound does not count",
    "SB304": "a store {where} may write {core}",
    "SB305": "a write {where} may set IVSEL, which moves the interrupt vectors",
    "SB306": "the stack is used {where} before SPL is written",
    "SB307": "the file programs fuses with which the chip starts elsewhere or as another chip",
    "SB308": "the call {where} enters a recursion that is counted only as deep as the simulated runs went",
    "SB321": "the bound holds if the store {where} stays inside its object",
    "SB322": "the bound holds if the call {where} enters a function whose address is taken",
    "SB323": "the bound holds if the store {where} stays inside its object and enables no interrupt without a handler",
    "SB341": "the spec states what happens {where}",
    "SB342": "the `recursion` line of the spec limits the call {where}",
}


def rule_of(it: Place) -> str:
    """The rule of an entry: that of its first kind."""
    kind = next(kind for kind in RULES if kind in it.kinds.values())
    return MAY_ENABLE if kind == SAFETY and it.may_enable else RULES[kind]


def vectors_of(it: Place) -> List[int]:
    """The words of the vectors of an entry of vectors."""
    return [word for word in it.kinds if isinstance(word, int)] if not it.words else []


def vector_name(outcome: Accepted, it: Place) -> str:
    """The vector of an entry of one."""
    device = outcome.firmware.device
    return device.vectors[device.vector_of(vectors_of(it)[0])] if it.says else ""


def where(outcome: Accepted, it: Place) -> str:
    """Where a place is, as a sentence ends."""
    return f"in {outcome.firmware.function(it.words[0])}" if it.source and it.words else f"({it.title})"


def message(outcome: Accepted, it: Place, rule: str) -> str:
    """A place as one sentence."""
    if it.says:
        return f"{vector_name(outcome, it)} {it.says}"
    return MESSAGES[rule].format(where=where(outcome, it), core=core(outcome, "the stack pointer", "or"))


def subject(outcome: Accepted, it: Place) -> Optional[str]:
    """What instructions are called: by their function if they have a source line, of a handler by the vector; None of what is none."""
    if not it.words:
        return None
    return outcome.firmware.function(it.words[0]) if it.source else it.title


def locations(outcome: Accepted, it: Place) -> Tuple[Location, ...]:
    if it.words:
        return of_words(outcome.firmware, it.words)
    return tuple(Location(function=vector_name(outcome, it), word=outcome.firmware.device.word(word)) for word in vectors_of(it))


def enablers(outcome: Accepted, word: int) -> Iterator[Related]:
    """Yields the instructions that may set the enable bit of the vector at a word, by name: where the source enables it."""
    firmware = outcome.firmware
    vector = firmware.device.vector_of(word)
    if firmware.device.is_open(vector):
        return
    every = {symbol.address // 2 for symbol in firmware.elf.code}
    for at, register in list(dict.fromkeys(refusals.setters(firmware, outcome.own, every, vector)))[:MOST_ENABLERS]:
        yield Related("reason", f"{firmware.function(at)} may set the enable bit in {register}", of_word(firmware, at))


def finding(outcome: Accepted, it: Place, fails: bool) -> Finding:
    """The finding of an entry; `fails` says whether it makes the status 5."""
    rule = rule_of(it)
    level = ERROR if fails else WARNING if it.is_ordinary() and not it.judged else NOTE
    related = tuple(one for word in vectors_of(it) for one in enablers(outcome, word)) if rule == "SB303" else ()
    review = Review(it.judged.number, it.judged.why) if it.judged else None
    cure = outcome.cure if rule == BY_RUNS else it.cure
    return Finding(rule, level, message(outcome, it, rule), locations(outcome, it), related, tuple(it.told()), subject(outcome, it),
                   it.code, cure=cure, spec_lines=tuple(it.closers), record=it.keep, reviewed=review, kind=KINDS[rule[:4]])


def unplaced(outcome: Accepted, is_accepted: bool) -> Iterator[Finding]:
    """Yields a recursion that is counted as deep as the runs, if no place is one of its calls."""
    if any(recursion.BY_RUNS in it.kinds.values() for it in outcome.entries):
        return
    for it in outcome.recursions:
        if it.is_by_runs():
            yield Finding(BY_RUNS, WARNING if is_accepted else ERROR,
                          f"{it.name} calls itself, and is counted only as deep as the simulated runs went",
                          of_words(outcome.firmware, it.entries), details=(it.by_runs(),), cure=outcome.cure, record=it.line(),
                          kind=ORDINARY)


def findings(outcome: Accepted, failing: List[Place], is_accepted: bool) -> Iterator[Finding]:
    """Yields the finding of each entry; those of `failing` are errors. `is_accepted` says that no place makes a status."""
    yield from (finding(outcome, it, it in failing) for it in outcome.entries if it.kinds)
    yield from unplaced(outcome, is_accepted)
