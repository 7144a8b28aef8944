"""Lines `recursion` for a firmware that is refused for a recursion: the functions of its cycles, with as many activations as simulated runs
reached."""

from __future__ import annotations

from dataclasses import dataclass, replace
from typing import Iterable, List, Mapping, Optional, Sequence, Tuple

from stackcheck_tools.analysis import questions, refusals
from stackcheck_tools.analysis.cures import RECURSION
from stackcheck_tools.analysis.questions import Certificate, Search
from stackcheck_tools.analysis.runs import Ran, Stop
from stackcheck_tools.analysis.state import Facts, State, trials_of
from stackcheck_tools.analysis.trials import Scope, Trials, short
from stackcheck_tools.firmware.firmware import Firmware
from stackcheck_tools.spec import recursion
from stackcheck_tools.spec.lines import Lines, name_of
from stackcheck_tools.spec.recursion import Nest, Recursion

REFUSED = f"refused {RECURSION} "
MOST_CYCLES, MOST_TOGETHER = 8, 3
MOST_COUNTS = (512, 64, 24)  # activations, by how many functions are counted together
ANY = Scope(0, False, True, None)  # of no certificate
RUNS = (3, 8, 2)  # trial runs by their numbers: a short one with timers, two in which inputs change


def is_refused(state: State) -> bool:
    """Whether a recursion is what a firmware is refused for."""
    return (state.refusal or "").startswith(REFUSED)


def lines_at(lines: Lines, entries: Iterable[int], depth: int) -> Lines:
    """These lines with each of these words entered down to a depth."""
    for it in entries:
        lines = lines.give(it, recursion.KIND, {depth})
    return lines


def cut(state: State) -> Search[Tuple[List[int], Optional[str]]]:
    """The words at which an analysis refuses cycles, one after the other, and the certificate where each is cut."""
    found: List[int] = []
    text = state.refusal or ""
    while text.startswith(REFUSED) and len(found) < MOST_CYCLES:
        word = int(text.split()[4], 16)
        if word in found:
            break
        found.append(word)
        answer = yield from questions.analyse(lines_at(state.lines, found, 0))
        if isinstance(answer, Certificate):
            return found, answer.text
        text = answer.text
    return found, None


def functions_of(facts: Facts, state: State, words: List[int]) -> List[int]:
    """The functions of these cycles where they are few, else those at which the cycles are refused."""
    graph = refusals.steps(facts.firmware, state.lines)
    every = list(dict.fromkeys([*words, *(it.target for word in words for _, it in refusals.way_back(graph, word))]))
    given = {entry for entry, _ in recursion.numbered(state.recursions)}
    return sorted(set(every if len(every) <= MOST_TOGETHER else words) - given)


@dataclass(frozen=True)
class Limits:
    """The functions of the cycles of a firmware, how deep simulated runs called each, and the lines that say so. `given` are the numbers of
    the spec's own lines, `refusal` what was refused without these."""

    refusal: str
    nest: Nest
    trials: Trials
    given: Tuple[int, ...]
    depths: Mapping[int, int]
    lines: Tuple[Recursion, ...]

    def is_called(self) -> bool:
        return any(self.depths.values())

    def is_passed(self, stop: Stop, lines: Lines) -> bool:
        """Whether a flagged step is a call beyond one of these lines."""
        if stop.kind != "transfer" or stop.other not in self.depths:
            return False
        return not lines.has(stop.word, "jump") or stop.other in lines.of(stop.word, "jump")

    def counted(self) -> Optional[Limits]:
        """With the least number of activations in each line that explains how deep runs called its word; None if there are no such
        numbers."""
        most, together = 2, min(len(self.depths), len(MOST_COUNTS))
        while most <= MOST_COUNTS[together - 1]:
            held = self.nest.depths((most,) * len(self.depths) + self.given)
            if all(max(it) >= depth for it, depth in zip(held, self.depths.values())):
                counts = [next(n for n in range(1, most + 1) if max(it[:n]) >= depth) for it, depth in zip(held, self.depths.values())]
                return replace(self, lines=tuple(replace(line, count=count) for line, count in zip(self.lines, counts)))
            most *= 2
        return None


def ran_at(facts: Facts, state: State, limits: Limits, number: int, at: Mapping[int, int]) -> Search[Ran]:
    """What comes of a run in which these words are entered down to these depths, and the others as deep as they may be."""
    lines = lines_at(state.lines, limits.depths, recursion.greatest(facts.device))
    for entry, depth in at.items():
        lines = lines.give(entry, recursion.KIND, {depth})
    return (yield from short(limits.trials._replace(lines=lines), number))


def goes_deeper(facts: Facts, state: State, limits: Limits, number: int, entry: int, depth: int) -> Search[bool]:
    """Whether a run calls a word with more bytes on the stack."""
    stop = (yield from ran_at(facts, state, limits, number, {entry: depth})).stop
    return stop is not None and stop.kind == "transfer" and stop.other == entry


def looked(facts: Facts, state: State, limits: Limits, number: int) -> Search[Limits]:
    """With the greatest number of bytes above a call of each word in a run too."""
    depths = dict(limits.depths)
    for entry, least in limits.depths.items():
        if not (yield from goes_deeper(facts, state, limits, number, entry, least)):
            continue
        deepest = (yield from ran_at(facts, state, limits, number, {})).depth
        below, above = least, min(deepest or 0, recursion.greatest(facts.device))
        while above - below > 1:
            middle = (below + above) // 2
            is_deeper = yield from goes_deeper(facts, state, limits, number, entry, middle)
            below, above = (middle, above) if is_deeper else (below, middle)
        depths[entry] = above
    return replace(limits, depths=depths)


def with_lines(recursions: Sequence[Recursion], lines: Sequence[Recursion]) -> Tuple[Recursion, ...]:
    """Those of the spec, with these of simulated runs."""
    return (*(it for it in recursions if not it.is_by_runs()), *lines)


def raised(facts: Facts, state: State, limits: Limits) -> Search[Tuple[State, bool]]:
    """Has the lines explain the flagged run too; whether that has raised one."""
    found = (yield from looked(facts, state, limits, state.stopped_at)).counted()
    if found is None or [it.count for it in found.lines] == [it.count for it in limits.lines]:
        return state, False
    return replace(state, limits=found, recursions=with_lines(state.recursions, found.lines)), True


def name(firmware: Firmware, entry: int) -> str:
    """A function as a line of a spec names it."""
    symbol = firmware.elf.symbol_at(2 * entry)
    return symbol and name_of(firmware.elf, symbol) or recursion.name_of_entry(firmware, entry)


def limits(facts: Facts, state: State) -> Search[Optional[Limits]]:
    """The cycles of a firmware that is refused for a recursion, with what some runs of it show; None where they can't be cut."""
    if not is_refused(state):
        return None
    words, certificate = yield from cut(state)
    entries = functions_of(facts, state, words) if certificate else []
    if certificate is None or not entries:
        return None
    given = recursion.numbered(state.recursions)
    nest = Nest(facts.firmware, certificate, [*entries, *(entry for entry, _ in given)])
    lines = tuple(Recursion(None, name(facts.firmware, it), (it,), 1) for it in entries)
    found = Limits(state.refusal or "", nest, trials_of(facts, state.lines, ANY), tuple(it.count for _, it in given),
                   {it: 0 for it in entries}, lines)
    for number in RUNS if facts.runs is None else RUNS[:facts.runs]:
        found = yield from looked(facts, state, found, number)
    return found.counted()


def lines(facts: Facts, state: State) -> Search[List[str]]:
    """A line of a spec for each function of the cycles of a refused firmware."""
    found = state.limits or (yield from limits(facts, state))
    return [it.line() for it in found.lines] if found and is_refused(state) else []
