"""The next lines to try, from what the program said to those before: without the program, so the same answer has the same proposal."""

from __future__ import annotations

from dataclasses import replace
from typing import Callable, Dict, FrozenSet, Iterable, Iterator, List, NamedTuple, Set, Tuple

from stackcheck_tools.analysis import causes
from stackcheck_tools.analysis.cures import RECURSION, UNKNOWN_POINTER, UNRESOLVED_JUMP, UNTRACKED_SP, parts
from stackcheck_tools.analysis.state import Facts, State
from stackcheck_tools.dataflow import calls
from stackcheck_tools.firmware import candidates, switches
from stackcheck_tools.spec.lines import Lines
from stackcheck_tools.spec.sites import frames_of
from stackcheck_tools.spec.spec import MOST_ITEMS, is_unhandled

TABLES = "__tablejump2__"


class Proposal(NamedTuple):
    """What to go on with, and why."""

    state: State
    why: str


class Wanted(NamedTuple):
    """Lines of a kind that places ask for, with their items, by sites, and why."""

    kind: str
    items: Dict[int, FrozenSet[int]]
    why: str


def with_targets(facts: Facts, state: State, sites: Iterable[int]) -> State:
    """A `jump` line with all that is known for each of these sites that has none; a note where these are too many."""
    lines, notes = state.lines, list(state.notes)
    for site in sites:
        found = calls.first_targets(facts.elf, facts.device, site)
        if not found or lines.has(site, "jump"):
            continue
        if lines.may_add(site, "jump", found):
            lines = lines.add(site, "jump", found)
        else:
            notes.append((site, f"{len(found)} functions may be called here, and a line has at most {MOST_ITEMS}"))
    return replace(state.under(lines), notes=tuple(notes))


def with_never(facts: Facts, lines: Lines) -> Lines:
    """A `never` line for each vector that leads to the compiler's default, which begins the program anew."""
    found = [facts.device.vector_word(it) for it in facts.device.vectors if is_unhandled(facts.elf, facts.device, it)]
    return lines.add_each(found, "never")


def with_frames(facts: Facts, lines: Lines) -> Lines:
    """`frame` lines where a function gives its frame back in a way that isn't followed without them."""
    found = {it for symbol in candidates.with_whole(facts.elf).code for it in frames_of(facts.elf, symbol)}
    return lines.add_each(sorted(found), "frame")


def narrowed(facts: Facts, state: State) -> Lines:
    """Takes from the `jump` lines of this tool what leads back to where it is called from."""
    lines, elf = state.lines, facts.elf
    for site, kind in state.lines.written():
        caller = elf.symbol_at(2 * site)
        if kind != "jump" or caller is None or caller.name == TABLES:
            continue
        if site in state.lists.whole or candidates.table_of_jumps(elf, site):
            continue
        own = caller.address // 2
        kept = {it for it in lines.of(site, kind) if (site, it) in state.pinned or it != own and own not in candidates.reached(elf, it)}
        if kept and kept != lines.of(site, kind):
            lines = lines.put(site, kind, kept)
    return lines


def with_free(lines: Lines, site: int) -> Lines:
    """A `free` line, or no line `prove` of this tool where one stands."""
    if lines.has(site, "prove"):
        return lines if lines.is_given(site, "prove") else lines.drop(site, "prove")
    return lines.add(site, "free")


Step = Tuple[str, Callable[[State], State]]  # why, and what is done


def steps(facts: Facts, number: str, word: int) -> Iterator[Step]:
    """Yields what may help against a refusal, the likeliest first."""
    targets: Step = "the targets of all calls through pointers", lambda state: with_targets(facts, state, candidates.indirect(facts.elf))
    if number == UNRESOLVED_JUMP:
        yield targets[0], lambda state: with_targets(facts, state, [word, *candidates.indirect(facts.elf)])
    elif number == UNKNOWN_POINTER:
        yield "the pointer need not be known", lambda state: state.under(with_free(state.lines, word))
    else:
        if number == UNTRACKED_SP and candidates.is_start_up(facts.elf, word):
            yield "vectors without a handler are not entered", lambda state: state.under(with_never(facts, state.lines))
        if number == UNTRACKED_SP:
            yield "frames that are given back otherwise", lambda state: state.under(with_frames(facts, state.lines))
        yield targets
        if number == UNTRACKED_SP:  # the loop that calls constructors leads anywhere if not all bits of their words are known
            yield ("the targets of the helper that calls constructors",
                   lambda state: with_targets(facts, state, switches.of_helper_itself(facts.elf)))
        if number == RECURSION:
            yield "no call leads back to where it stands", lambda state: state.under(narrowed(facts, state))


def for_refusal(facts: Facts, state: State, text: str) -> Proposal:
    """The first step against a refusal that makes other lines; where none does, the same lines, with what was noted on the way."""
    number, _, _, place, _ = parts(text)
    for why, step in steps(facts, number, int(place or "0", 16)):
        more = step(state)
        if more.lines is not state.lines:
            return Proposal(more, why)
        state = more
    return Proposal(state, "")


def is_open(state: State, word: int, kind: str, items: Iterable[int] = ()) -> bool:
    """Whether a line may be added at a store, and wasn't tried before."""
    others = ("free", "prove") if kind == "store" else ("free", "prove", "store")
    if (word, kind) in state.tried or any(state.lines.has(word, it) for it in others):
        return False
    return state.lines.may_add(word, kind, items)


def for_places(facts: Facts, state: State, premises: List[str]) -> Iterator[Wanted]:
    """Yields the lines that the list of places asks for: `prove` where a pointer is one constant, `store` where it may be few registers."""
    told = causes.by_word(facts.device, premises)
    if not told:
        return
    enabling = facts.device.enabling
    yield Wanted("prove", {word: frozenset() for word, it in told.items()
                           if it.addresses and it.number() is not None and is_open(state, word, "prove")}, "the pointer is one constant there")
    yield Wanted("store", {word: frozenset(it.addresses) for word, it in sorted(told.items())
                           if it.is_few() and (len(it.addresses) == 1 or it.addresses <= enabling)
                           and is_open(state, word, "store", it.addresses)}, "the store may write these protected registers alone")


def added(state: State, wanted: Wanted, sites: Iterable[int]) -> State:
    """The lines that are wanted at these sites."""
    lines = state.lines
    for site in sites:
        lines = lines.add(site, wanted.kind, wanted.items[site])
    return state.under(lines)


def wild_stores(facts: Facts, premises: List[str]) -> Set[int]:
    """The words of stores that may write a register that enables interrupts."""
    told = causes.by_word(facts.device, premises)
    return {word for word, it in told.items() if it.addresses and (it.more or it.addresses & facts.device.enabling)}
