"""Lets the list of each call through a pointer have every function whose address is taken, where there is a bound then: no list is a guess
but those that can't have them all."""

from __future__ import annotations

from dataclasses import replace
from typing import Dict, FrozenSet, List, Optional

from stackcheck_tools.analysis.node_states import words_of
from stackcheck_tools.analysis.questions import Search
from stackcheck_tools.analysis.settling import attempt, with_own
from stackcheck_tools.analysis.state import Facts, State
from stackcheck_tools.dataflow import calls
from stackcheck_tools.firmware import candidates, debug_lines, switches
from stackcheck_tools.firmware.elf import Elf
from stackcheck_tools.spec.spec import MOST_ITEMS

# avr-libc's functions that call what they are given: a stream's functions, a comparison
GIVEN_ONE = ("fputc", "fgetc", "fputs", "fputs_P", "puts", "puts_P", "fwrite", "fread", "fgets", "gets", "ungetc", "bsearch", "qsort")
MOST_TRIED = 8  # lists that are tried one by one where they aren't accepted together
ROUNDS = 4  # in which functions that are reached only then bring further lists
RECORDED, SEARCHED = "by the linker's records", "as far as a search of this file finds"
COMPLETE = {
    calls.ALL: "its list has every function whose address is taken, {}",
    calls.PLAIN: "its list has every function whose address is taken, {}, except those in tables of virtual functions alone, which it does not read",
    calls.PLACE: "its list has every function whose address is taken, {}, except those that stand only at other places of tables of virtual "
                 "functions",
    calls.OBJECT: "its list has what stands at its place of the tables of its object's class, {}",
    calls.HELPER: "its list has each constructor and each case of a `switch` that goes through a table"}
NONE = "with every function whose address may be taken there is no bound"
UNNAMED = "the file has no names, so no search finds every function whose address is taken"
UNTRIED = "a bound with every function whose address may be taken was not tried"
UNKNOWN_TABLE = "one of the tables of `switch` through which it jumps was not found"
REFUTED = "a simulated run went to {}, which no search and no record names as a function whose address is taken: the list may lack others"
EMPTY = ("the file takes the address of no function, and this call is none of avr-libc's own: its pointer is made in a way that no list "
         "knows")
WHOLE = "lists with every function that may be called there"
TOO_MANY = "{} functions have their address taken, and a list has at most {}"
RECORDS = "link with -Wl,--emit-relocs: then the linker's records name every function whose address is taken"


def bound_of(certificate: Optional[str]) -> int:
    """The bound that a certificate has."""
    return next((int(line.split()[1]) for line in (certificate or "").splitlines() if line.startswith("bound ")), 0)


def is_of_streams(elf: Elf, site: int) -> bool:
    """Whether a call is one of avr-libc's functions, whose pointer is one that the program gives it: with no function to give, nothing is
    called."""
    symbol = elf.symbol_at(2 * site)
    return symbol is not None and symbol.name in GIVEN_ONE and not debug_lines.of(elf).source(2 * site)


def why_none(facts: Facts, site: int) -> str:
    """Why no complete list of a site is known."""
    return UNKNOWN_TABLE if site in switches.of_helper_itself(facts.elf) else UNNAMED


def complete(found: calls.Complete) -> str:
    """Why a list is complete."""
    return COMPLETE[found.kind].format(RECORDED if found.by_records else SEARCHED)


class Widening:
    """The lists of a firmware that has a bound: `reached` are the words that its certificate reaches. All else is in states."""

    def __init__(self, facts: Facts, reached: FrozenSet[int]) -> None:
        self.facts, self.reached = facts, reached
        self.lists: Dict[int, Optional[calls.Complete]] = {}

    def list_of(self, site: int) -> Optional[calls.Complete]:
        """What a site may enter, which no line changes."""
        if site not in self.lists:
            self.lists[site] = calls.of_site(self.facts.elf, self.facts.device, site, self.reached)
        return self.lists[site]

    def open_sites(self, state: State) -> List[int]:
        """The sites of calls through pointers whose lines this tool wrote and of which nothing is known yet."""
        elf, lists = self.facts.elf, state.lists
        known = {*candidates.indirect(elf), *switches.of_helper_itself(elf)}
        return [site for site, kind in state.lines.written() if kind == "jump" and site in known and site not in lists.whole
                and site not in lists.why]

    def why_not(self, state: State, site: int, found: calls.Complete) -> Optional[str]:
        """Why a list that is known is no complete one; None where it is."""
        seen = {word for at, word in state.pinned if at == site}
        if refuting := seen - set(found.words):
            return REFUTED.format(" ".join(map(self.facts.firmware.function, sorted(refuting))))
        return None if found.words or is_of_streams(self.facts.elf, site) else EMPTY

    def wanted(self, state: State, site: int) -> FrozenSet[int]:
        """The complete list of a site; what it has now where no function is known that it could have."""
        found = self.list_of(site)
        return frozenset(found.words if found else ()) or frozenset(state.lines.of(site, "jump"))

    def told(self, state: State, site: int) -> State:
        """Notes a list that is complete as it is, or why none is; the same where the complete list is still to be tried."""
        found = self.list_of(site)
        why = why_none(self.facts, site) if found is None else self.why_not(state, site, found)
        if found is None or why:
            return replace(state, lists=state.lists.told(site, why or ""))
        words = self.wanted(state, site)
        if words == state.lines.of(site, "jump"):
            return self.taken(state, site)
        if len(words) > MOST_ITEMS:
            return replace(state, lists=state.lists.told(site, TOO_MANY.format(len(words), MOST_ITEMS)))
        return state

    def taken(self, state: State, site: int) -> State:
        """Notes that a list is complete."""
        found, lists = self.list_of(site), state.lists
        return replace(state, lists=replace(lists, whole=lists.whole | {site}).told(site, complete(found) if found else ""))

    def attempt(self, state: State, sites: List[int]) -> Search[Optional[State]]:
        """These sites with their complete lists, where there is a bound then."""
        lines, narrower = state.lines, {site: frozenset(state.lines.of(site, "jump")) for site in sites}
        for site in sites:
            lines = lines.put(site, "jump", self.wanted(state, site))
        whole = replace(state, lists=replace(state.lists, whole=state.lists.whole | set(sites)))
        found = yield from attempt(self.facts, whole, lines, WHOLE)
        if found is None:
            return None
        bound = bound_of(state.certificate) if found.lists.bound is None else found.lists.bound
        found = replace(found, lists=replace(found.lists, bound=bound, narrower={**found.lists.narrower, **narrower}))
        for site in sites:
            found = self.taken(found, site)
        return found

    def given_up(self, state: State, site: int, why: str) -> State:
        """Notes why a list isn't complete, if it lacks anything."""
        state = replace(state, lists=state.lists.told(site, why))
        return self.taken(state, site) if self.wanted(state, site) <= state.lines.of(site, "jump") else state

    def round(self, state: State) -> Search[State]:
        """The lists of all open sites, all together or else one by one."""
        for site in self.open_sites(state):
            state = self.told(state, site)
        sites = sorted(self.open_sites(state))
        if not sites:
            return state
        if found := (yield from self.attempt(state, sites)):
            return found
        for number, site in enumerate(sites):
            is_tried = number < MOST_TRIED
            found = (yield from self.attempt(state, [site])) if is_tried and len(sites) > 1 else None
            state = found or self.given_up(state, site, NONE if is_tried else UNTRIED)
        return state

    def run(self, state: State) -> Search[State]:
        for _ in range(ROUNDS):
            if not self.open_sites(state):
                break
            state = yield from self.round(state)
        for _ in range(ROUNDS if state.lists.narrower else 0):  # stores that are reached only now
            state, is_new = yield from with_own(self.facts, state)
            if not is_new:
                break
        lists = state.lists
        if lists.bound is not None and bound_of(state.certificate) <= lists.bound:
            lists = replace(lists, bound=None, narrower={})
        return replace(state, lists=lists)


def widened(facts: Facts, state: State) -> Search[State]:
    """With complete lists, where there is a bound then."""
    return (yield from Widening(facts, words_of(state.certificate or "")).run(state))
