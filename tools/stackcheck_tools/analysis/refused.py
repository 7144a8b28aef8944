"""The finding of a firmware without a bound: what is refused, its usual cause, what leads to it in this firmware, and what helps."""

from __future__ import annotations

from typing import List, Optional, Tuple

from stackcheck_tools.analysis import cures, cycles, refusals
from stackcheck_tools.analysis.added import by_tool
from stackcheck_tools.analysis.locations import of_vector, of_word, of_words
from stackcheck_tools.analysis.questions import Refusal, Search, analyse
from stackcheck_tools.analysis.settling import at_refusal
from stackcheck_tools.analysis.state import Facts, State
from stackcheck_tools.finding import ERROR, Finding, Location, Related
from stackcheck_tools.firmware import candidates, opcodes
from stackcheck_tools.firmware.firmware import Firmware

MOST_OTHERS = 8  # vectors that are tried behind the first that lets itself in
# causes that lines cure
BY_LINES = ("tables", "constructors", "pointer", "stream", "prologues", "high byte", "unhandled", "joined", "array", "copy")
RULES = {cures.UNRESOLVED_JUMP: "SB101", cures.RECURSION: "SB102", cures.RE_ENTRY: "SB103", cures.UNTRACKED_SP: "SB104",
         cures.UNSUPPORTED: "SB105", cures.TOO_DEEP: "SB106", cures.TOO_LARGE: "SB107", cures.UNKNOWN_POINTER: "SB108"}
MESSAGES = {
    cures.UNRESOLVED_JUMP: "{function} calls or jumps through a pointer whose targets are not listed (`{text}`)",
    cures.RECURSION: "{function} calls itself, directly or through others",
    cures.RE_ENTRY: "{vector} can be interrupted by its own vector",
    cures.UNTRACKED_SP: "the stack pointer cannot be followed at `{text}` in {function}",
    cures.UNSUPPORTED: "{text} in {function} is not an instruction of {device}, or one that writes flash",
    cures.TOO_DEEP: "the stack would exceed SRAM ({need} bytes of {sram})",
    cures.TOO_LARGE: "the analysis needs more {text} than a certificate may have",
    cures.UNKNOWN_POINTER: "the pointer of `{text}` in {function} has to be known and is not",
}


def message(firmware: Firmware, refusal: str) -> str:
    """A refusal as one sentence without a place."""
    number, _, vector, place, text = cures.parts(refusal)
    function = firmware.function(int(place, 16)) if place else ""
    return MESSAGES[number].format(function=function, vector=firmware.device.vectors[int(vector)] if vector else "", text=text or "",
                                   device=firmware.device.name, need=(text or "").rpartition(" ")[2], sram=firmware.device.sram())


def lines_for(facts: Facts, state: State, name: str) -> Search[List[str]]:
    """The lines of a spec that this tool would write for a refusal of this cause, with all candidates."""
    given = state.under(state.lines.all_given())
    more = given
    if name == "division":
        more = given.under(given.lines.add_pairs())
    if more is given and name in BY_LINES:
        more = yield from at_refusal(facts, given, state.refusal or "")
    return [] if more.lines is given.lines else [it.spec or it.assumption for it in by_tool(facts.firmware, more.lines)]


def others(facts: Facts, state: State, name: str, word: Optional[int]) -> Search[List[int]]:
    """The other words of the same kind, as far as the file or the program tells them."""
    elf = facts.elf
    if name in ("recursion", "put"):
        found = [it.address // 2 for it in elf.code if it.is_function and it.address // 2 in candidates.reached(elf, it.address // 2)]
    elif name == "written flash":
        found = [at for words in candidates.code(elf) for at, opcode in words if opcode == opcodes.SPM]
    elif name in ("re-entry", "noblock", "merged"):
        return (yield from other_vectors(state))
    else:
        return []
    return sorted(set(found) - {word})


def other_vectors(state: State) -> Search[List[int]]:
    """The words of the vectors that let themselves in, beside the first: each with the ones before it left out."""
    found: List[int] = []
    lines, words = state.lines, (state.refusal or "").split()
    for _ in range(MOST_OTHERS):
        if words[:3] != ["refused", cures.RE_ENTRY, "re-entry"]:
            break
        lines = lines.add(int(words[6], 16), "never")
        answer = yield from analyse(lines)
        words = answer.text.split() if isinstance(answer, Refusal) else []
        if words[:3] == ["refused", cures.RE_ENTRY, "re-entry"]:
            found.append(int(words[6], 16))
    return found


def locations(facts: Facts, state: State, name: str, word: Optional[int]) -> Search[Tuple[Location, ...]]:
    """The place of a refusal, of a re-entry the handler, and all others of the same kind."""
    first: Tuple[Location, ...] = ()
    firmware, vector = facts.firmware, cures.parts(state.refusal or "")[2]
    if word is not None:
        first = of_vector(firmware, word) if vector else (of_word(firmware, word),)
    more = yield from others(facts, state, name, word)
    return first + (tuple(of_vector(firmware, it)[0] for it in more) if vector else of_words(firmware, more))


def finding(facts: Facts, state: State) -> Search[Finding]:
    """The one finding of an analysis that has no bound."""
    refusal, firmware = state.refusal or "", facts.firmware
    name, word = cures.cure(firmware.elf, firmware.device, refusal, state.lines)
    reasons: List[Related] = refusals.reasons(firmware, state.lines, refusal) or list(refusals.of_cause(firmware, name))
    _, why, cure = cures.CURES[name]
    cause, why, cure = refusals.overriding(name, reasons) or (name, why, cure)
    notes = [Related("reason", note, of_word(firmware, at)) for at, note in state.notes]
    lines = (yield from lines_for(facts, state, name)) or (yield from cycles.lines(facts, state))
    return Finding(
        RULES[cures.parts(refusal)[0]], ERROR, message(firmware, refusal), (yield from locations(facts, state, name, word)),
        tuple(it for it in (*reasons, *notes) if it.location.is_known()),
        (refusal, *(it.message for it in reasons if not it.location.is_known())),
        cause=cause, why=why, cure=cure, spec_lines=tuple(lines))
