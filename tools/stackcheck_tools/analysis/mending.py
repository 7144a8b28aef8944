"""Looks for the lines of an assumption file under which a firmware has a bound that no trial run shows to be empty: adds lines for
refusals, for places and for what trial runs show, until nothing changes."""

from __future__ import annotations

from dataclasses import replace
from typing import Tuple

from stackcheck_tools.analysis import questions
from stackcheck_tools.analysis.questions import Search
from stackcheck_tools.analysis.runs import Stop
from stackcheck_tools.analysis.settling import ROUNDS, settled, with_own
from stackcheck_tools.analysis.state import Facts, State, scope, trials_of
from stackcheck_tools.analysis.stops import at_stop, may_admit
from stackcheck_tools.analysis.trials import Scope, Tried, Trials, first_flagged


def sought(facts: Facts, state: State) -> Search[State]:
    """With a schedule that goes as deep as the bound, sought once for a certificate; it changes the schedule alone."""
    if not facts.seeks or state.sought == state.certificate:
        return state
    found = yield from questions.attain(state.lines, state.certificate or "")
    return replace(state, answer=found, sought=found.text)


def first_tried(facts: Facts, state: State, found: Trials, certificate: Scope) -> Search[Tuple[State, Tried]]:
    """Where runs can tell their depth alone: the long one, then a search for one as deep as the bound."""
    tried = yield from first_flagged(found, certificate, 1, Tried(0))
    if not certificate.is_told(tried.deepest):
        state = yield from sought(facts, state)
    return state, tried


def noted(state: State, stop: Stop, tried: Tried, may: bool) -> State:
    """Notes a flagged step: the first one, or one that a line may admit."""
    return replace(state, stop=stop if may else state.stop or stop, stopped_at=tried.number)


def tried_from(facts: Facts, state: State, begin: int) -> Search[Tuple[State, int]]:
    """Trial runs from a number on, and all of them where none asks for a line; the number of the first that does."""
    certificate = yield from scope(state)
    found = trials_of(facts, state.lines, certificate)
    state, tried, may = replace(state, stop=None), Tried(begin), False
    if begin == 0 and facts.runs != 0 and not certificate.may_flag:
        state, tried = yield from first_tried(facts, state, found, certificate)
        certificate = yield from scope(state)
    while True:
        tried = yield from first_flagged(found, certificate, facts.runs, tried)
        if tried.stop is None:
            break
        state = noted(state, tried.stop, tried, False)
        state, may = yield from may_admit(facts, state, tried.stop)
        if may:
            state = noted(state, tried.stop, tried, True)
            break
        tried = tried._replace(number=tried.number + 1)
    if begin and tried.stop is None:
        return (yield from tried_from(facts, state, 0))
    return replace(state, deepest=tried.deepest, deepest_run=tried.deepest_run), tried.number


def mended(facts: Facts, state: State) -> Search[State]:
    """Adds lines until nothing changes."""
    begin = 0
    for _ in range(ROUNDS):
        if state.certificate is None:
            state = yield from settled(facts, state)
            if state.certificate is None:
                return state
        state, is_new = yield from with_own(facts, state)
        if is_new:
            continue
        state, begin = yield from tried_from(facts, state, begin)
        state, is_new = yield from at_stop(facts, state)
        if not is_new:
            return state
        state = replace(state, answer=None)
    return state
