"""The line `masks`, by which stores may enable interrupts: it is tried first, and taken back where it alone leads to a refusal."""

from __future__ import annotations

from dataclasses import replace
from typing import Iterator, Set, Tuple

from stackcheck_tools.analysis.cures import RE_ENTRY, REFUSAL
from stackcheck_tools.analysis.mending import mended
from stackcheck_tools.analysis.proposals import wild_stores, with_never
from stackcheck_tools.analysis.questions import Search, because
from stackcheck_tools.analysis.settling import MOST_TRIED, attempt
from stackcheck_tools.analysis.state import Facts, State, told
from stackcheck_tools.firmware import candidates, opcodes
from stackcheck_tools.spec.lines import Lines
from stackcheck_tools.spec.spec import MASKS, NOWHERE

R0 = 0  # a register that no compiled store means
SPARED = "these stores enable no interrupt"
LOOKED = "a look whether there is a bound without that"


def with_masks(facts: Facts, lines: Lines) -> Tuple[Lines, bool]:
    """With `masks`, where the device doesn't make it needless, and `never` lines for the vectors that have no handler; whether that was
    done: it mustn't be given."""
    if lines.has_masks() and facts.device.is_first():
        return lines, False
    lines = with_never(facts, lines)
    return lines.add(NOWHERE, MASKS) if facts.device.is_first() else lines, True


def open_stores(facts: Facts, lines: Lines) -> Set[int]:
    """The words of all stores through pointers of which no line speaks."""
    found = {at for words in candidates.code(facts.elf) for at, opcode in words if opcodes.is_pointer_store(opcode)}
    return {it for it in found if not any(lines.has(it, kind) for kind in ("store", "prove", "free"))}


def groups(facts: Facts, refusal: str, wild: Set[int]) -> Iterator[Set[int]]:
    """Stores that may lead to a refusal of handlers: those of the handler that is named with what it calls, then those of all
    handlers."""
    elf, device, found = facts.elf, facts.device, REFUSAL.match(refusal)
    entry = opcodes.jump_target(elf, int(found[4], 16)) if found and found[1] == RE_ENTRY and found[4] else None
    entries = [] if entry is None else [{entry}]
    entries.append({it for it in (opcodes.jump_target(elf, device.vector_word(vector)) for vector in device.vectors) if it is not None})
    last: Set[int] = set()
    for begins in entries:
        reached = set(begins).union(*(candidates.reached(elf, it) for it in begins))
        sites = {it for it in wild if (symbol := elf.symbol_at(2 * it)) and symbol.address // 2 in reached}
        if sites and sites != last:
            yield sites
            last = sites


def spared(facts: Facts, state: State, sites: Set[int]) -> Search[State]:
    """Drops the lines that say of a store that it enables no interrupt, where there is a bound without them."""
    for site in sorted(sites)[:MOST_TRIED]:
        if state.lines.of(site, "store") == {R0}:
            state = (yield from attempt(facts, state, state.lines.drop(site, "store"), LOOKED)) or state
    return state


def partly(facts: Facts, state: State, sites: Set[int]) -> State:
    """With `masks`, but for stores that are said to enable no interrupt."""
    lines = state.lines.add(NOWHERE, MASKS) if facts.device.is_first() else state.lines
    lines = with_never(facts, lines)
    for site in sites:
        lines = lines.add(site, "store", {R0})
    return replace(state.look().under(lines), answer=None)


def without_masks(facts: Facts, state: State, before: Lines) -> Search[State]:
    """Where the line `masks` alone leads to a refusal: takes it back at the stores that lead there, or leaves it out where the device
    lets it. `before` are the lines before it was tried."""
    plain, is_first, why = state.look(), facts.device.is_first(), f"{state.refusal}: {{}}"
    if is_first:
        yield from because(state.lines, before, why.format("taken back with what was added behind it"))
        plain = yield from mended(facts, replace(plain, lines=before, answer=None, tried=frozenset()))
        if plain.refusal:
            return state.adopt(plain)
    wild, lines = wild_stores(facts, (yield from told(plain))) if is_first else open_stores(facts, state.lines), plain.lines
    for sites in groups(facts, state.refusal or "", wild):
        other = partly(facts, plain, sites)
        yield from because(lines, other.lines, why.format(SPARED))
        found = yield from mended(facts, other)
        if not found.refusal:
            return state.adopt(found if is_first else (yield from spared(facts, found, sites)))
        lines, why = found.lines, f"{found.refusal}: {{}}"
    yield from because(lines, plain.lines, why.format("taken back"))
    return state.adopt(plain)
