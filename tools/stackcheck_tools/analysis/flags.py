"""The finding of a flagged step in a simulated run: what comes behind it is not covered by the bound."""

from __future__ import annotations

from typing import Dict, Optional, Tuple

from stackcheck_tools.analysis.locations import of_word
from stackcheck_tools.analysis.questions import Search
from stackcheck_tools.analysis.runs import Stop
from stackcheck_tools.analysis.state import Facts, State
from stackcheck_tools.analysis.stops import admitted
from stackcheck_tools.analysis.telling import line_of_spec
from stackcheck_tools.finding import ERROR, NOTE, Finding, Related, Review
from stackcheck_tools.firmware.firmware import Firmware
from stackcheck_tools.rules import BY_ID
from stackcheck_tools.spec import recursion
from stackcheck_tools.spec.lines import Lines

ADMITTED = ("SB202", "SB203", "SB204", "SB205")  # rules of steps that a line may admit
STOPS = {"protected": "SB202", "live": "SB203", "transfer": "SB204", "moved": "SB205"}
COVERS = "the bound covers only what comes before"
MESSAGES = {
    "SB201": "{vector} is enabled, has no handler, and fires in a simulated run: the program restarts there",
    "SB202": "a store writes {register} in a simulated run, which no line lists",
    "SB203": "a store overwrites a byte of the stack that is in use ({address}) in a simulated run",
    "SB204": "a call or jump goes to {target} in a simulated run, which its list lacks",
    "SB205": "IVSEL is set in a simulated run, which moves the interrupt vectors",
    "SB206": "a simulated run has more than {count} activation{s} of {name} at once, and the spec says `recursion {name} {count}`",
}


def rule_of(state: State, stop: Stop) -> str:
    """The rule of a flagged step."""
    if stop.kind == "transfer" and recursion.line_at(state.recursions, stop.other):
        return "SB206"
    if stop.kind == "transfer" and state.lines.has(stop.other, "never") and not state.lines.is_given(stop.other, "never"):
        return "SB201"
    return STOPS[stop.kind]


def target(firmware: Firmware, word: int) -> str:
    """Where a transfer goes: the place in a function, else the word."""
    return firmware.place(word) if firmware.elf.symbol_at(2 * word) else f"word {firmware.device.word(word)}"


def message(firmware: Firmware, state: State, stop: Stop, rule: str) -> str:
    """A flagged step as one sentence without its place."""
    device, limit = firmware.device, recursion.line_at(state.recursions, stop.other) if rule == "SB206" else None
    words: Dict[str, object] = {"address": f"{stop.other:04X}"}
    if rule == "SB201":
        words["vector"] = device.vectors[device.vector_of(stop.other)]
    elif rule == "SB202":
        words["register"] = device.register_name(stop.other)
    elif rule == "SB204":
        words["target"] = target(firmware, stop.other)
    elif limit:
        words.update(name=limit.name, count=limit.count, s="" if limit.count == 1 else "s")
    return MESSAGES[rule].format(**words)


def line_that_admits(facts: Facts, lines: Lines, stop: Stop) -> Search[Optional[str]]:
    """The line that admits a flagged step, whether or not one was given there; None if there is none."""
    free, kind = yield from admitted(facts, lines.none_given(), stop)
    if not kind:
        return None
    line = Lines(facts.device).put(stop.word, kind, free.of(stop.word, kind))
    return line_of_spec(facts.firmware, line, stop.word, kind) or line.line(stop.word, kind)


def finding(facts: Facts, state: State, stop: Stop) -> Search[Finding]:
    """The finding of a flagged step."""
    rule, firmware = rule_of(state, stop), facts.firmware
    admitting = (yield from line_that_admits(facts, state.lines, stop)) if rule in ADMITTED else None
    help_ = BY_ID[rule].help
    related: Tuple[Related, ...] = ()
    if stop.kind == "transfer":
        related = (Related("target", "the step goes here", of_word(firmware, stop.other)),)
    return Finding(rule, ERROR, message(firmware, state, stop, rule), (of_word(firmware, stop.word),), related, (COVERS,),
                   cure=f"{help_[:1].lower()}{help_[1:].rstrip('.')}", spec_lines=(admitting,) if admitting else ())


def reviewed(found: Finding, review: Review) -> Finding:
    """The same step of which a line of the spec says that the bound is kept."""
    return Finding(found.rule, NOTE, found.message, found.locations, found.related, found.details, reviewed=review)
