"""Reads a spec, whose lines name sites by functions, and makes the lines of an assumption file from it."""

from __future__ import annotations

import re
from typing import AbstractSet, Dict, List, Optional, Set, Tuple

from stackcheck_tools.firmware import opcodes
from stackcheck_tools.firmware.devices import Device
from stackcheck_tools.firmware.elf import Elf
from stackcheck_tools.firmware.fuses import KEPT as FUSES_KEPT
from stackcheck_tools.firmware.names import Missing, SpecFault
from stackcheck_tools.firmware.targets import targets
from stackcheck_tools.spec import recursion, scratch, settings, sites
from stackcheck_tools.spec.sites import AT_LINE

MOST_ITEMS, MOST_LINES = 64, 4096
PAIRS, MASKS, NOWHERE = "pairs", "masks", -1  # the lines that stand at no site and before all others
KINDS = (PAIRS, MASKS, "jump", "store", "prove", "free", "never", "frame", recursion.KIND, scratch.KIND)  # as they stand at one site
FORMS = {PAIRS: "", MASKS: "", "jump": "FUNCTION N ..", "store": "FUNCTION N ..", "prove": "FUNCTION N", "free": "FUNCTION N",
         "never": "VECTOR", "frame": "FUNCTION", scratch.KIND: "FUNCTION N ..",
         "keeps": "FUNCTION:LINE"}
UNASSUMED = (PAIRS, MASKS, "frame", scratch.KIND)  # those that assume nothing
NAMED = tuple(FORMS)[:-1]  # those that a spec has, with `recursion` and `keeps`
AT_SITES = ("jump", "store", "prove", "free")  # those whose site may be told by a source line
START_UP = "@startup"


def assumption_line(device: Device, kind: str, place: int, items: AbstractSet[int]) -> str:
    """The line of an assumption file of this kind, at this word, with these items: a depth, data addresses or words."""
    def item(number: int) -> str:
        return str(number) if kind == recursion.KIND else f"{number:04X}" if kind == "store" else device.word(number)

    return " ".join([kind, *([] if place == NOWHERE else [device.word(place)]), *map(item, sorted(items))])


class Line:
    """A line for the assumption file: its number and text in the spec, its kind, the words at which it stands, and its items."""

    def __init__(self, number: int, text: str, kind: str, places: Set[int], items: Set[int]) -> None:
        self.number, self.text, self.kind, self.places, self.items = number, text, kind, places, items


class Keep:
    """A line that says of places that they were judged: those of a function, all or of one source line; and why they keep the bound."""

    def __init__(self, number: int, name: str, line: Optional[int], why: str) -> None:
        self.number, self.name, self.line, self.why = number, name, line, why

    def end(self) -> str:
        """What stands behind the name."""
        return "" if self.name in (START_UP, FUSES_KEPT) else " *" if self.line is None else f":{self.line}"


def register(device: Device, word: str) -> int:
    """The data address of a protected register of a device, by its name in avr-libc, r0 to r31, or 0x and digits."""
    if word in device.registers:
        return device.registers[word]
    try:
        address = int(word, 16) if word.startswith("0x") else -1
    except ValueError:
        address = -1
    if address not in device.registers.values():
        raise SpecFault(f"{word} is not a protected register")
    return address


def is_unhandled(elf: Elf, device: Device, vector: int) -> bool:
    """Whether a vector leads by jumps alone to where the program begins, as avr-libc's default does."""
    word: Optional[int] = device.vector_word(vector)
    passed: Set[int] = set()
    while word and word not in passed:
        passed.add(word)
        word = opcodes.jump_target(elf, word)
        word = word % device.words if word is not None else None
    return word == 0


def vectors(elf: Elf, device: Optional[Device], name: str) -> Set[int]:
    """The words of a vector by its name in avr-libc, or of each that has no handler."""
    if device is None:
        raise SpecFault("the file does not say for which device it was linked: give --device")
    if name == "@unhandled":
        found = {it for it in device.vectors if is_unhandled(elf, device, it)}
        if not found:
            raise SpecFault("each vector has a handler")
    else:
        vector = device.vector_named(name)
        if vector is None:
            raise SpecFault(f"{name} is not a vector")
        found = {vector}
    return {device.vector_word(it) for it in found}


def sites_of(elf: Elf, kind: str, rest: List[str]) -> Tuple[Set[int], List[str]]:
    """The sites that the words behind a kind name, and the words behind these: FUNCTION N, FUNCTION *, FUNCTION:LINE or FILE:LINE."""
    if AT_LINE.match(rest[0]):
        return sites.at_line(elf, kind, rest[0]), rest[1:]
    if rest[1] == "*":
        return sites.each(elf, kind, rest[0]), rest[2:]
    return sites.numbered(elf, kind, rest[0], rest[1]), rest[2:]


def is_of_form(kind: str, rest: List[str]) -> bool:
    """Whether the words behind a kind are as many as its form has."""
    form = FORMS[kind].split()
    if kind in AT_SITES and rest and AT_LINE.match(rest[0]):
        form.pop(0)
    least = len(form) - (kind == scratch.KIND)  # one number is enough there
    return len(rest) >= least if form[-1:] == [".."] else len(rest) == len(form)


def words_of(line: str) -> List[str]:
    """The words of a line; a name of C++ may have spaces within its brackets."""
    words: List[str] = []
    depth = 0
    for word in line.split():
        words.append(f"{words.pop()} {word}" if depth > 0 else word)
        depth += sum(word.count(it) for it in "(<") - sum(word.count(it) for it in ")>")
    return words


def read_line(elf: Elf, device: Optional[Device], words: List[str]) -> Tuple[str, Set[int], Set[int]]:
    """The kind, the sites and the items of one line."""
    kind, rest = words[0], words[1:]
    if kind not in FORMS:
        raise SpecFault(f"{kind} must be one of {', '.join((*NAMED, 'recursion', 'keeps', *settings.FORMS))}")
    if not is_of_form(kind, rest):
        raise SpecFault(f"expected `{kind} {FORMS[kind]}".rstrip() + "`")
    if kind in (PAIRS, MASKS):
        return kind, {NOWHERE}, set()
    if kind == "never":
        return kind, vectors(elf, device, rest[0]), set()
    if kind == "frame":
        return kind, sites.frames(elf, rest[0]), set()
    if kind == scratch.KIND:
        return kind, set().union(*(sites.numbered(elf, kind, rest[0], it) for it in rest[1:])), set()
    places, rest = sites_of(elf, kind, rest)
    if kind == "jump":
        return kind, places, targets(elf, rest)
    return kind, places, {register(elf.chip, word) for word in rest}


def read_keep(elf: Elf, number: int, words: List[str], why: str) -> Keep:
    """A line `keeps`, whose function has to be there."""
    rest = words[1:]
    if not (len(rest) == 2 and rest[1] == "*" or len(rest) == 1 and (rest[0] in (START_UP, FUSES_KEPT) or AT_LINE.match(rest[0]))):
        raise SpecFault(f"expected `keeps FUNCTION:LINE`, `keeps FUNCTION *`, `keeps {START_UP}` or `keeps {FUSES_KEPT}`")
    if not why:
        raise SpecFault("a line `keeps` says after # why the place keeps the bound")
    has_line = rest[-1] not in ("*", START_UP, FUSES_KEPT)
    name, line = (rest[0].rpartition(":")[0], int(rest[0].rpartition(":")[2])) if has_line else (rest[0], None)
    vector = elf.chip.vector_named(name)
    if line is not None:
        sites.file_of(elf, name)
    elif vector is not None:
        name = elf.chip.vectors[vector]
    elif name not in (START_UP, FUSES_KEPT):
        sites.words_of(elf, name)
    return Keep(number, name, line, why)


class Spec:
    """`lines` for the assumption file, `keeps` and `recursions`; `never` lines ask for the firmware's device."""

    def __init__(self, elf: Elf, text: str, device: Optional[Device] = None) -> None:
        self.lines: List[Line] = []
        self.keeps: List[Keep] = []
        self.recursions: List[recursion.Recursion] = []
        self.device = device or elf.chip
        above = ""
        for number, line in enumerate(text.splitlines(), start=1):
            line, _, comment = re.sub(r"^\s*\?", " ? ", line).partition("#")
            words, comment = words_of(line), comment.strip()
            is_optional = words[:1] == ["?"]
            words = words[is_optional:]
            try:
                if words[:1] == ["keeps"]:
                    self.keeps.append(read_keep(elf, number, words, comment or above))
                elif words[:1] == ["recursion"]:
                    self.recursions.append(recursion.read(elf, number, words, comment or above))
                elif words and not settings.is_one(words[0]):
                    self.lines.append(Line(number, " ".join(words), *read_line(elf, device, words)))
            except SpecFault as fault:
                if not (is_optional and isinstance(fault, Missing)):
                    raise SpecFault(str(fault), number) from None
            above = comment if not words else ""
        recursion.numbered(self.recursions)

    def text(self) -> str:
        """The text of the assumption file. Lines on one site are one line, and those of `pairs` and of `masks` too."""
        lines: Dict[Tuple[int, int], Set[int]] = {}
        number = 0
        for line in self.lines:
            number = line.number
            for place in line.places:
                held = lines.setdefault((place, KINDS.index(line.kind)), set())
                held |= line.items
                if len(held) > MOST_ITEMS:
                    raise SpecFault(f"a line of an assumption file has at most {MOST_ITEMS} words, and these are {len(held)}", number,
                                    "SB008")
        if len(lines) > MOST_LINES:
            raise SpecFault(f"an assumption file has at most {MOST_LINES} lines, and these are {len(lines)}", number, "SB008")
        return "".join(assumption_line(self.device, KINDS[kind], place, items) + "\n" for (place, kind), items in sorted(lines.items()))


def assumptions(elf: Elf, text: str, device: Optional[Device] = None) -> str:
    """The text of the assumption file that a spec makes of this firmware; of lines `recursion` alone the analysis makes lines."""
    spec = Spec(elf, text, device)
    for it in spec.recursions:
        raise SpecFault("a line `recursion` needs an analysis for its depth, which stackcheck makes", it.number)
    return spec.text()
