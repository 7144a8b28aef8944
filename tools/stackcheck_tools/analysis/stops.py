"""What is made of a flagged step of a trial run: the line that admits it, or none."""

from __future__ import annotations

from dataclasses import replace
from typing import List, Optional, Tuple

from stackcheck_tools.analysis import core_registers, cycles, questions
from stackcheck_tools.analysis.questions import Certificate, Search, because
from stackcheck_tools.analysis.runs import Stop
from stackcheck_tools.analysis.settling import attempt
from stackcheck_tools.analysis.state import Facts, State, scope, trials_of
from stackcheck_tools.analysis.telling import text_of_stop
from stackcheck_tools.analysis.trials import short
from stackcheck_tools.firmware import candidates, opcodes
from stackcheck_tools.spec import recursion, scratch
from stackcheck_tools.spec.lines import Lines

MOST_PUSHES = 16  # pushes that are tried one by one for a line `scratch`
SHOWN = "a simulated run: {}"
LOOKED = "a look whether the run goes on then"


def is_beyond_lines(facts: Facts, lines: Lines, stop: Stop) -> bool:
    """Whether no line may admit a flagged step: a write of a live byte or of IVSEL, a vector that a `never` line names, a call that is
    too deep."""
    if stop.kind == "transfer":
        is_deep = lines.has(stop.other, recursion.KIND) and stop.other in lines.of(stop.word, "jump")
        return lines.has(stop.other, "never") or is_deep or not opcodes.is_indirect(facts.elf.word(stop.word))
    return stop.kind in ("live", "moved")


def grown(lines: Lines, stop: Stop, kind: str) -> Lines:
    """With the target or the address of a stop in the line of its site; the same object where it may not be added, or is there."""
    return lines.add(stop.word, kind, {stop.other}) if lines.may_add(stop.word, kind, {stop.other}) else lines


def admitted(facts: Facts, lines: Lines, stop: Stop) -> Search[Tuple[Lines, Optional[str]]]:
    """With the line that admits a stop, and its kind; None where no line may."""
    if is_beyond_lines(facts, lines, stop):
        return lines, None
    if stop.kind == "transfer":
        more = grown(lines, stop, "jump")
        return more, None if more is lines else "jump"
    if not lines.has(stop.word, "prove") and not lines.has(stop.word, "free"):
        proved = lines.add(stop.word, "prove")
        if isinstance((yield from questions.analyse(proved)), Certificate):
            return proved, "prove"
    more = grown(lines, stop, "store")
    return more, None if more is lines else "store"


def pushes(facts: Facts, lines: Lines) -> List[int]:
    """The pushes that a line `scratch` may name."""
    found = dict.fromkeys(scratch.candidates_of(candidates.code(facts.elf)))
    return [it for it in found if not lines.has(it, scratch.KIND)][:MOST_PUSHES]


def goes_on(facts: Facts, state: State, stop: Stop, word: int) -> Search[bool]:
    """Whether the run goes on behind a stop with a line `scratch`, under which there is a bound."""
    lines = state.lines.add(word, scratch.KIND)
    trials = trials_of(facts, lines, (yield from scope(state)))
    found = (yield from short(trials, state.stopped_at)).stop
    if found == stop:
        return False
    other = yield from attempt(facts, state, lines, SHOWN.format(text_of_stop(facts.firmware, stop)))
    if other is None:
        return False
    yield from because(other.lines, state.lines, LOOKED)
    return True


def scratch_for(facts: Facts, state: State, stop: Stop) -> Search[State]:
    """Notes the push with whose line `scratch` the run that wrote a live byte goes on behind that step."""
    if stop in state.scratched:
        return state
    found: Optional[int] = None
    for word in pushes(facts, state.lines):
        if (yield from goes_on(facts, state, stop, word)):
            found = word
            break
    return replace(state, scratched={**state.scratched, stop: found})


def may_admit(facts: Facts, state: State, stop: Stop) -> Search[Tuple[State, bool]]:
    """Whether a line may admit a flagged step, and a program may mean it where it is a transfer: a write of a live byte by one of
    `scratch` alone."""
    if stop.kind == "live":
        state = yield from scratch_for(facts, state, stop)
        return state, state.scratched[stop] is not None
    if state.limits and state.limits.is_passed(stop, state.lines):
        return state, True
    if is_beyond_lines(facts, state.lines, stop):
        return state, False
    return state, stop.kind != "transfer" or candidates.may_be_entered(facts.elf, stop.word, stop.other)


def follow_enables(facts: Facts, lines: Lines, site: int) -> Search[Lines]:
    """Lets a `store` line of this tool list the registers that enable interrupts and whose address stands in the file, where there is a
    bound then."""
    named = [it for it in facts.device.enabling if core_registers.stands(facts.elf, it)]
    if not named or not lines.may_add(site, "store", named):
        return lines
    more = lines.add(site, "store", named)
    return more if isinstance((yield from questions.analyse(more)), Certificate) else lines


def reads_masks(facts: Facts, lines: Lines) -> bool:
    """Whether a store through a pointer may write registers that enable interrupts: by the line `masks`, or by the device."""
    return lines.has_masks() or not facts.device.is_first()


def at_stop(facts: Facts, state: State) -> Search[Tuple[State, bool]]:
    """Adds the line that admits the flagged step of a trial run; whether there is one."""
    stop = state.stop
    if stop is None:
        return state, False
    why = SHOWN.format(text_of_stop(facts.firmware, stop))
    state, may = yield from may_admit(facts, state, stop)
    if not may:
        return state, False
    if state.limits and state.limits.is_passed(stop, state.lines):
        return (yield from cycles.raised(facts, state, state.limits))
    if stop.kind == "live":
        push = state.scratched[stop]
        more = state if push is None else state.under(state.lines.add(push, scratch.KIND))
        yield from because(state.lines, more.lines, why)
        return more, more is not state
    lines, kind = yield from admitted(facts, state.lines, stop)
    if kind == "store" and reads_masks(facts, lines):
        lines = yield from follow_enables(facts, lines, stop.word)
    yield from because(state.lines, lines, why)
    state = state.under(lines)
    if kind == "jump":
        state = replace(state, pinned=state.pinned | {(stop.word, stop.other)})
    return state, kind is not None
