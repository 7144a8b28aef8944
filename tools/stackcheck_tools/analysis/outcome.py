"""What an analysis of one firmware comes to: a bound whose certificate the program accepted, or the finding that there is none."""

from __future__ import annotations

import json
from argparse import Namespace
from dataclasses import dataclass, field
from typing import TYPE_CHECKING, Dict, Iterator, List, Optional, Sequence, Union

from stackcheck_tools.analysis import causes, flags, questions, refused, search, warnings_of_words
from stackcheck_tools.analysis.dialogue import Dialogue
from stackcheck_tools.analysis.locations import of_word
from stackcheck_tools.analysis.program import OK, NoProgram, Program
from stackcheck_tools.analysis.questions import Because
from stackcheck_tools.analysis.runs import Run, Stop
from stackcheck_tools.analysis.state import Facts, Lists, State, told
from stackcheck_tools.analysis.widening import bound_of
from stackcheck_tools.finding import Finding, Judge, Link
from stackcheck_tools.firmware import intel_hex
from stackcheck_tools.firmware.firmware import Firmware
from stackcheck_tools.spec import recursion, settings
from stackcheck_tools.spec.lines import Lines
from stackcheck_tools.spec.spec import Keep, Spec

if TYPE_CHECKING:
    from stackcheck_tools.analysis.places import Place


@dataclass
class Refused:
    """A firmware without a bound, under which lines, and why."""

    firmware: Firmware
    spec: str  # the text of the spec
    given: str  # the text of the assumption file that it makes
    own: Lines
    finding: Finding
    judge: Judge
    steps: Sequence[Because]  # of the search of lines


@dataclass
class Accepted:
    """A firmware with a bound whose certificate was accepted, under which lines, and what the program says of it."""

    firmware: Firmware
    spec: str
    given: str
    certificate: str
    own: Lines
    lists: Lists  # of calls through pointers
    judge: Judge
    recursions: Sequence[recursion.Recursion]  # of the spec or by runs, with the depths that they came to
    steps: Sequence[Because]  # of the search of lines
    cure: Optional[str] = None  # of a recursion that is as deep as the runs
    told_of_masks: Optional[str] = None  # what the line `masks` costs, or why it was left out
    stop: Optional[Stop] = None  # the flagged step of a simulated run
    flag: Optional[Finding] = None  # the same as a finding
    bound: int = 0
    room: int = 0
    is_attained: bool = False
    seen: Optional[int] = None  # the depth of the deepest run known
    deepest: Optional[Run] = None  # the simulated run that is as deep as the bound
    chain: List[Link] = field(default_factory=list)
    premises: List[str] = field(default_factory=list)
    causes: Dict[int, causes.Cause] = field(default_factory=dict)
    closers: Dict[int, str] = field(default_factory=dict)
    warnings: List[warnings_of_words.Warned] = field(default_factory=list)
    entries: List[Place] = field(default_factory=list)
    idle_keeps: List[Keep] = field(default_factory=list)


Outcome = Union[Accepted, Refused]


def room(firmware: Firmware, reported: Optional[int]) -> int:
    """The bytes between static data and the end of SRAM, by the program and by the file."""
    rooms = [firmware.device.sram(), *([] if reported is None else [reported])]
    if end := firmware.elf.static_end():
        rooms.append(max(firmware.device.last + 1 - end, 0))
    return min(rooms)


def read_report(found: Accepted, program: Program, certificate: str) -> None:
    """Has the certificate judged, as `check` does, and reads bound and room: only what is accepted is told."""
    status, text = program.call("report", certificate, "--json")
    if status != OK:
        raise NoProgram(f"report: status {status}: {text.strip()}")
    report = json.loads(text)
    found.bound, found.room = report["bound"], room(found.firmware, report["room"])
    found.is_attained = found.is_attained or report["witness"] == "attained"


def links(firmware: Firmware, lines: List[str]) -> Iterator[Link]:
    """Yields the links of the deepest chain."""
    for words in (it.split() for it in lines if it.startswith("link ")):
        adds = int(words[9])
        if words[6] == recursion.KIND:
            entry = int(words[7], 16)
            name = recursion.name_of_entry(firmware, entry)
            yield Link(adds, f"reset, with all that stands above the last call of {name}", of_word(firmware, entry))
        else:
            kind, entry, name, at = words[1], int(words[2], 16), words[5], int(words[7], 16)
            text = f"{firmware.instance(kind, entry, None if name == '-' else name)} at {firmware.place(at)}"
            yield Link(adds, text, of_word(firmware, at))


def read_premises(dialogue: Dialogue, found: Accepted, state: State) -> None:
    """Reads the places at which a step may be flagged, and what may happen there: what the search was told, since no schedule changes it."""
    found.premises = dialogue.run(told(state))
    found.causes = causes.by_word(found.firmware.device, found.premises)


def attain(dialogue: Dialogue, found: Accepted, state: State, words: Namespace) -> None:
    """Takes the simulated run that is as deep as the bound, or has a schedule sought, where the certificate has none."""
    if "\nwitness attained\n" in found.certificate:
        return
    if state.deepest is not None and state.deepest >= bound_of(found.certificate):
        found.is_attained, found.deepest = True, state.deepest_run  # a run of `simulate` is one of those of which a bound speaks
    elif not words.no_attain and state.sought != state.certificate:
        found.certificate = dialogue.run(questions.attain(state.lines, found.certificate)).text


def take(dialogue: Dialogue, found: Accepted, state: State, words: Namespace) -> Accepted:
    """Has the certificate that was found judged, and gathers what the program says of it."""
    attain(dialogue, found, state, words)
    program, certificate = dialogue.program(state.lines), dialogue.put("certificate", found.certificate)
    for command in (("report", certificate, "--json"), ("explain", certificate)):
        program.begin(*command)
    try:
        read_report(found, program, certificate)
        if found.is_attained and words.trials != 0:
            found.seen = found.bound  # the certificate's own schedule is a run
        found.chain = list(links(found.firmware, program.lines("explain", certificate)))
    finally:
        program.end()
    read_premises(dialogue, found, state)
    found.warnings = warnings_of_words.warnings(found.firmware, found.certificate)
    found.closers = dialogue.run(causes.closers(found.firmware, state.lines, found.causes))
    return found


def searched(facts: Facts, dialogue: Dialogue, spec: str, read: Optional[Spec], words: Namespace) -> Outcome:
    """Looks for lines under which the firmware has a bound, and judges what is found."""
    firmware, given = facts.firmware, read.text() if read else ""
    begin = State(Lines.read(firmware.device, given), recursions=tuple(read.recursions) if read else ())
    steps: List[Because] = []
    state = dialogue.run((search.plain if words.plain else search.search)(facts, begin), steps)
    if state.refusal:
        return Refused(firmware, spec, given, state.lines, dialogue.run(refused.finding(facts, state)), dialogue.judge, steps)
    flag = dialogue.run(flags.finding(facts, state, state.stop)) if state.stop else None
    found = Accepted(firmware, spec, given, state.certificate or "", state.lines, state.lists, dialogue.judge, state.recursions, steps,
                     search.cure_of_recursion(facts, state), state.told_of_masks, state.stop, flag, seen=state.deepest)
    return take(dialogue, found, state, words)


def judge(words: Namespace, folder: str) -> Outcome:
    """Analyses and judges the firmware of the command's words; files are made in the folder."""
    spec = ""
    if words.spec:
        with open(words.spec, encoding="utf8") as file:
            spec = file.read()
    lines = settings.read(spec)
    path, device = words.firmware, words.device or (lines.device.value if lines.device else None)
    firmware = intel_hex.firmware(path, device, folder) if intel_hex.is_one(path) else Firmware(path, device)
    firmware.check_start()
    read = Spec(firmware.elf, spec, firmware.device) if words.spec else None
    return searched(Facts(firmware, words.trials, not words.no_attain), Dialogue(firmware, folder), spec, read, words)
