"""The search of lines for one firmware, from its spec to the state that is judged."""

from __future__ import annotations

from dataclasses import replace
from typing import Callable, Optional, Tuple

from stackcheck_tools.analysis import cycles, mask_cost
from stackcheck_tools.analysis.cures import CURES, cure
from stackcheck_tools.analysis.masked import with_masks, without_masks
from stackcheck_tools.analysis.mending import mended, tried_from
from stackcheck_tools.analysis.proposals import is_open, with_targets
from stackcheck_tools.analysis.questions import Certificate, Search, analyse, because
from stackcheck_tools.analysis.settling import analysed
from stackcheck_tools.analysis.state import Facts, State, told
from stackcheck_tools.analysis.stops import reads_masks
from stackcheck_tools.analysis.trials import handled
from stackcheck_tools.analysis.widening import widened
from stackcheck_tools.dataflow import virtual_calls
from stackcheck_tools.firmware import candidates, opcodes, register_results
from stackcheck_tools.spec import parameters, scratch
from stackcheck_tools.spec.lines import Lines

MOST_PARAMETERS = 2000  # pushes of parameters that get a line `scratch`


def with_scratch(facts: Facts, lines: Lines) -> Lines:
    """Lines for the pushes of parameters, and for those of avr-libc's `exp`, whose bytes are written on purpose."""
    return lines.add_each(scratch.of_exp(facts.elf) + list(parameters.pushes(facts.elf))[:MOST_PARAMETERS], scratch.KIND)


def with_results(facts: Facts, lines: Lines) -> Lines:
    """Lines for stores by which avr-libc's functions write their results into registers."""
    for word, registers in register_results.stores(facts.elf).items():
        if is_open(State(lines), word, "store", registers):
            lines = lines.add(word, "store", registers)
    return lines


def with_foreseen(facts: Facts, state: State) -> State:
    """Lists of calls through pointers, if an analysis without them is certainly refused: code that is entered by name reads such a pointer
    from memory."""
    elf, device = facts.elf, facts.device
    begins = {it.address // 2 for it in elf.named("main")}
    begins |= {opcodes.jump_target(elf, device.vector_word(it)) or 0 for it in handled(elf, device)}
    reached = begins.union(*(candidates.reached(elf, it) for it in begins))
    sites = list(candidates.indirect(elf))
    is_read = any((symbol := elf.symbol_at(2 * it)) and symbol.address // 2 in reached and virtual_calls.is_read(elf, it) for it in sites)
    return with_targets(facts, state, sites) if is_read else state


FIRST: Tuple[Tuple[str, Callable[[Facts, Lines], Lines]], ...] = (
    ("register pairs are followed", lambda _, lines: lines.add_pairs()),
    ("the program writes these bytes on purpose, as scratch space", with_scratch),
    ("functions of avr-libc write their results there", with_results))
FORESEEN = "code that is entered by name calls through pointers"
MASKED = "stores may enable interrupts, and vectors without a handler are not entered"


def begun(facts: Facts, state: State) -> Search[State]:
    """With the lines that no answer asks for."""
    for why, step in FIRST:
        lines = step(facts, state.lines)
        yield from because(state.lines, lines, why)
        state = state.under(lines)
    more = with_foreseen(facts, state)
    yield from because(state.lines, more.lines, FORESEEN)
    return more


def limited(facts: Facts, state: State) -> Search[State]:
    """Where a recursion is refused: goes on with as many activations as simulated runs reach, if they call such a function at all."""
    found = yield from cycles.limits(facts, state)
    state = replace(state, limits=found)
    if found is None or not found.is_called():
        return state
    return (yield from mended(facts, replace(state, recursions=cycles.with_lines(state.recursions, found.lines), answer=None)))


def trimmed(state: State) -> Search[State]:
    """Without the `never` lines of this tool that no node needs, as `premises` tells."""
    written = {site for site, kind in state.lines.written() if kind == "never"}
    if not written:
        return state
    fewer, needed = state.lines, {int(line.split()[1], 16) for line in (yield from told(state)) if line.startswith("never ")}
    for site in written - needed:
        fewer = fewer.drop(site, "never")
    answer = yield from analyse(fewer)
    if not isinstance(answer, Certificate):
        return state
    yield from because(state.lines, fewer, "no place of the bound enters these vectors")
    return replace(state, lines=fewer, answer=answer)


def plain(facts: Facts, state: State) -> Search[State]:
    """The answer under the spec's lines alone."""
    state = yield from analysed(facts, state)
    if state.certificate is not None:
        state, _ = yield from tried_from(facts, state, 0)
    return state


def search(facts: Facts, state: State) -> Search[State]:
    """The answer with lines of this tool."""
    state = yield from begun(facts, state)
    before, has_masks = state.lines, False
    if found := (yield from mask_cost.needless(facts, state)):
        state = found
    else:
        lines, has_masks = with_masks(facts, before)
        yield from because(before, lines, MASKED)
        state = state.under(lines)
    state = yield from mended(facts, state)
    state = yield from limited(facts, state)
    if state.refusal and has_masks:
        state = yield from without_masks(facts, state, before)
    if state.certificate is None:
        return state
    state = yield from widened(facts, state)
    if reads_masks(facts, state.lines):
        return (yield from mask_cost.weighed(facts, state))
    return (yield from trimmed(state))


def cure_of_recursion(facts: Facts, state: State) -> Optional[str]:
    """What helps against a recursion that is taken to be as deep as the runs."""
    if state.limits is None or not any(it.is_by_runs() for it in state.recursions):
        return None
    return CURES[cure(facts.elf, facts.device, state.limits.refusal, state.lines)[0]][2]
