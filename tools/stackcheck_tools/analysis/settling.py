"""Analyses a firmware and adds lines for refusals, and looks at what other lines lead to.

Each line is safe: `pairs`, `masks` and `frame` assume nothing (and on all devices but the first four a list is read as with `masks`
anyway); a run that leaves the targets of a `jump` line, writes a register that no `store` line lists, or takes the vector of a `never` line
is flagged there, and `premises` lists these places; a line that lists too much costs bytes of the bound at most."""

from __future__ import annotations

from dataclasses import replace
from typing import Optional, Tuple

from stackcheck_tools.analysis import proposals, questions
from stackcheck_tools.analysis.cures import RE_ENTRY, REFUSAL, UNKNOWN_POINTER, parts
from stackcheck_tools.analysis.proposals import Wanted
from stackcheck_tools.analysis.questions import Refusal, Search, because
from stackcheck_tools.analysis.state import Facts, State, told
from stackcheck_tools.firmware import opcodes
from stackcheck_tools.spec import recursion
from stackcheck_tools.spec.lines import Lines

ROUNDS = 64
MOST_TRIED = 8  # lines that are tried one by one where they aren't accepted together
DEPTHS = "recursions go as deep as their numbers of activations say"
PROOFS = "the analysis knows the pointers of the handler's stores"


def analysed(facts: Facts, state: State) -> Search[State]:
    """The answer under the lines, with the depths of recursions: those that the nodes tell which an analysis under depth 0 has."""
    state = replace(state, stop=None)
    if not state.recursions:
        return replace(state, answer=(yield from questions.analyse(state.lines)))
    lines = state.lines
    for entry, _ in recursion.numbered(state.recursions):
        lines = lines.give(entry, recursion.KIND, {0})
    answer = yield from questions.analyse(lines)
    if isinstance(answer, Refusal):
        yield from because(state.lines, lines, DEPTHS)
        return replace(state, lines=lines, answer=answer)
    recursions = recursion.settled(facts.firmware, answer.text, state.recursions)
    for entry, it in recursion.numbered(recursions):
        lines = lines.give(entry, recursion.KIND, {it.depths[entry]})
    yield from because(state.lines, lines, DEPTHS)
    return replace(state, lines=lines, recursions=recursions, answer=(yield from questions.analyse(lines)))


def with_proofs(facts: Facts, lines: Lines, vector: int, text: str) -> Search[Lines]:
    """`prove` lines for the stores of a handler whose pointers the analysis knows then, where another answer comes of it than the
    refusal's text."""
    symbol = facts.elf.symbol_at(2 * (opcodes.jump_target(facts.elf, vector) or 0))
    sites = opcodes.sites(facts.elf, symbol, opcodes.is_pointer_store) if symbol else []
    sites = [it for it in sites if not any(lines.has(it, kind) for kind in ("store", "prove", "free"))]
    proved, answer = lines.add_each(sites, "prove"), text
    for _ in sites:
        answer = (yield from questions.analyse(proved)).text.strip()
        unknown = REFUSAL.match(answer)
        if not unknown or unknown[1] != UNKNOWN_POINTER or not proved.has(int(unknown[4], 16), "prove"):
            break
        proved = proved.drop(int(unknown[4], 16), "prove")
    return lines if answer == text or not set(proved.items) - set(lines.items) else proved


def at_refusal(facts: Facts, state: State, text: str) -> Search[State]:
    """Adds lines of the kind that most likely cures a refusal; the same lines where nothing helps."""
    more, why = proposals.for_refusal(facts, state, text)
    number, _, _, place, _ = parts(text)
    if more.lines is state.lines and number == RE_ENTRY:
        more, why = more.under((yield from with_proofs(facts, more.lines, int(place or "0", 16), text))), PROOFS
    yield from because(state.lines, more.lines, f"{text}: {why}")
    return more


def settled(facts: Facts, state: State) -> Search[State]:
    """Analyses the firmware and adds lines for refusals until there is a bound or nothing helps."""
    for _ in range(ROUNDS):
        state = yield from analysed(facts, state)
        if state.refusal is None:
            return state
        more = yield from at_refusal(facts, state, state.refusal)
        if more.lines is state.lines:
            return replace(more, answer=state.answer)
        state = replace(more, answer=state.answer)
    return state


def attempt(facts: Facts, state: State, lines: Lines, why: str) -> Search[Optional[State]]:
    """Goes on with other lines, and those that cure what comes of them, where there is a bound then; None where there is none."""
    yield from because(state.lines, lines, why)
    other = yield from settled(facts, state.look().under(lines))
    if other.certificate is None:
        yield from because(other.lines, state.lines, f"{other.refusal}: taken back")
        return None
    return state.adopt(replace(other, stop=state.stop, deepest=state.deepest, deepest_run=state.deepest_run))


def with_all(facts: Facts, state: State, wanted: Wanted) -> Search[Tuple[State, bool]]:
    """Adds lines that places ask for, all together or else those that are accepted one by one; whether one was added."""
    sites, is_new = list(wanted.items), False
    if not sites:
        return state, False
    state = replace(state, tried=state.tried | {(it, wanted.kind) for it in sites})
    if found := (yield from attempt(facts, state, proposals.added(state, wanted, sites).lines, wanted.why)):
        return found, True
    for site in sites[:MOST_TRIED] if len(sites) > 1 else ():
        if found := (yield from attempt(facts, state, proposals.added(state, wanted, [site]).lines, wanted.why)):
            state, is_new = found, True
    return state, is_new


def with_own(facts: Facts, state: State) -> Search[Tuple[State, bool]]:
    """Adds lines that the list of places asks for; whether one was."""
    for wanted in proposals.for_places(facts, state, (yield from told(state))):
        more, is_new = yield from with_all(facts, state, wanted)
        if is_new:
            return more, True
        state = more
    return state, False


def settled_own(facts: Facts, state: State) -> Search[State]:
    """The answer with the lines that refusals and places ask for."""
    is_new = True
    while is_new:
        if state.certificate is None:
            state = yield from settled(facts, state)
            if state.certificate is None:
                return state
        state, is_new = yield from with_own(facts, state)
    return state
