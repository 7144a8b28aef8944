"""Makes the result of one call: the findings, in the order in which a reader wants them, and what is told beside them."""

from __future__ import annotations

from argparse import Namespace
from dataclasses import replace
from typing import List, Tuple

from stackcheck_tools.analysis import added, explained, idle_lines, kinds, limits, place_findings, places, remarks
from stackcheck_tools.analysis.flags import reviewed
from stackcheck_tools.analysis.outcome import Accepted, Outcome, Refused
from stackcheck_tools.finding import Added, Bound, Count, Edge, Finding, Need, Nesting, Result, Review
from stackcheck_tools.firmware import intel_hex
from stackcheck_tools.firmware.paths import readable
from stackcheck_tools.home import version
from stackcheck_tools.report import call_graph, frames, interrupts, needs, verdict
from stackcheck_tools.report.call_graph import Graph
from stackcheck_tools.spec import settings
from stackcheck_tools.spec.recursion import Recursion
from stackcheck_tools.spec.spec import Spec


def lines(outcome: Outcome) -> Tuple[Added, ...]:
    """The lines of the assumption file, those of the spec first."""
    return (*added.by_spec(outcome.firmware, outcome.given), *added.by_tool(outcome.firmware, outcome.own))


def flag(outcome: Accepted) -> Tuple[Finding, ...]:
    """The flagged step of a simulated run; a `keeps` line of its place reviews a write of IVSEL."""
    stop = outcome.stop
    if outcome.flag is None or stop is None:
        return ()
    lines = [it.judged for it in outcome.entries if it.judged and stop.word in it.words]
    if stop.kind == "moved" and lines:
        return (reviewed(outcome.flag, Review(lines[0].number, lines[0].why)),)
    return (outcome.flag,)


def to_review(outcome: Accepted, words: Namespace) -> List[places.Place]:
    """The entries that make the status 5."""
    return [] if words.accept_places else places.unjudged(outcome, words.judged)


def nesting(it: Recursion) -> Nesting:
    """A line `recursion` with its deepest entry."""
    entry = max(it.entries, key=lambda word: it.depths.get(word, 0))
    return Nesting(it.name, it.count, it.depths.get(entry, 0), it.steps.get(entry) or None, it.is_by_runs())


def edges(graph: Graph) -> Tuple[Edge, ...]:
    """The edges by names, each once, in order."""
    found = {(it.name, graph.instances[entry.other].name, entry.is_interrupt) for it in graph.instances for entry in it.entries.values()}
    return tuple(Edge(*it) for it in sorted(found))


def bound(outcome: Accepted) -> Bound:
    counts = kinds.counts(outcome)
    return Bound(outcome.bound, verdict.holds(outcome), outcome.is_attained, outcome.seen, outcome.room, outcome.firmware.device.sram(),
                 tuple(Count(kind, counts[kind]) for kind in kinds.ORDER if kind in counts))


def entered(outcome: Accepted, graph: Graph) -> List[int]:
    """The vectors that are entered somewhere."""
    return [it for it in outcome.firmware.device.vectors if any(other.kind == f"v{it}" for other in graph.instances)]


def result(outcome: Outcome, words: Namespace, command: Tuple[str, ...], folder: str) -> Result:
    """The result of a call by its words; files are made in the folder."""
    firmware = outcome.firmware
    device = firmware.device
    path, form = readable(firmware.path), "hex" if intel_hex.is_one(firmware.path) else "elf"
    head = Result(command, version(), outcome.judge, path, form, device.name, firmware.linked_for,
                  (device.first, device.last), words.spec and readable(words.spec), lines(outcome), (),
                  search=explained.steps(firmware, outcome.steps) if words.explain_search else None)
    if isinstance(outcome, Refused):
        return replace(head, findings=(outcome.finding,))
    spec = Spec(firmware.elf, outcome.spec, device)
    idle_lines.check(outcome, spec)
    outcome.entries = places.entries(outcome)
    outcome.idle_keeps = places.judge(outcome, spec.keeps)
    graph = Graph(outcome)
    table = tuple(Need(it.name, it.own, it.calls, it.all, it.is_handler) for it in call_graph.needs(graph))
    since = needs.since(words.diff, table) if words.diff else None
    number, chain = bound(outcome), tuple(outcome.chain)
    findings = (*flag(outcome), *limits.findings(number, words, limits.asked(words, settings.read(outcome.spec)), head.spec,
                                                   since.bound if since else None, chain),
                *place_findings.findings(outcome, to_review(outcome, words), words.accept_places), *remarks.findings(outcome, head.spec))
    return replace(
        head, findings=findings, certificate=outcome.certificate.split("\n", 1)[0], bound=number, chain=chain, needs=table,
        recursions=tuple(map(nesting, outcome.recursions)),
        interrupts=interrupts.costs(outcome, entered(outcome, graph), folder) if words.interrupts else None,
        since=since, calls=edges(graph), frames=frames.made(graph))
