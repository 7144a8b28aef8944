"""Where the compiler has put the code of functions into others, from the debug information of an ELF file: DWARF of versions 2 to 4."""

from __future__ import annotations

import functools
import struct
from typing import Dict, Iterator, List, NamedTuple, Optional, Tuple, Union

from stackcheck_tools.firmware.dwarf_reader import Reader
from stackcheck_tools.firmware.elf import Elf

UNIT, SUBPROGRAM, INLINED = 0x11, 0x2E, 0x1D
NAME, LOW, HIGH, ORIGIN, FILE, SPECIFICATION, RANGES = 0x03, 0x11, 0x12, 0x31, 0x3A, 0x47, 0x55
LINKAGE = (0x6E, 0x2007)
FIXED = {0x05: "H", 0x06: "I", 0x07: "Q", 0x0B: "B", 0x0C: "B", 0x11: "B", 0x12: "H", 0x13: "I", 0x14: "Q", 0x17: "I", 0x20: "Q"}
BLOCKS = {0x03: "H", 0x04: "I", 0x0A: "B"}


Span = Tuple[int, int]  # begin and end, by byte addresses
Kinds = Dict[int, Tuple[int, List[Tuple[int, int]]]]  # the kinds of entries by their codes: (tag, [(attribute, form)])


class Unit(NamedTuple):
    """A compilation unit: where it begins, the size of addresses, and its abbreviations."""

    begin: int
    version: int
    address: int
    kinds: Kinds


class Attribute(NamedTuple):
    """The form and the value of an attribute: a number, a text, or nothing that is needed here."""

    form: int
    value: Union[int, str, None]

    def number(self) -> int:
        """Its value, which has to be a number."""
        if not isinstance(self.value, int):
            raise ValueError
        return self.value


class Entry(NamedTuple):
    """An entry of the debug information: a function, a copy of one, or a unit."""

    offset: int
    tag: int
    attributes: Dict[int, Attribute]


def abbreviations(data: bytes, at: int) -> Kinds:
    """The kinds of entries of a unit."""
    reader = Reader(data, at)
    found: Kinds = {}
    while code := reader.number():
        tag, _ = reader.number(), reader.take("B")
        pairs = []
        while (pair := (reader.number(), reader.number())) != (0, 0):
            pairs.append(pair)
        found[code] = tag, pairs
    return found


def attribute(reader: Reader, form: int, unit: Unit, strings: bytes) -> Union[int, str, None]:
    """The value of an attribute; references count from the begin of the section."""
    if form in (0x01, 0x10):
        return reader.take("I" if form == 0x10 and unit.version > 2 or unit.address == 4 else "H")
    if form in FIXED:
        value = reader.take(FIXED[form])
        return value + unit.begin if 0x11 <= form <= 0x14 else value
    if form == 0x08:
        return reader.text()
    if form == 0x0E:
        return Reader(strings, reader.take("I")).text()
    if form in (0x0D, 0x0F):
        return reader.number(is_signed=form == 0x0D)
    if form == 0x15:
        return reader.number() + unit.begin
    if form in BLOCKS or form in (0x09, 0x18):
        length = reader.take(BLOCKS[form]) if form in BLOCKS else reader.number()
        reader.at += length
        return None
    if form == 0x19:
        return 1
    if form == 0x16:
        return attribute(reader, reader.number(), unit, strings)
    raise ValueError


def entries(elf: Elf, tags: Tuple[int, ...] = (SUBPROGRAM, INLINED)) -> Iterator[Entry]:
    """Yields the entries of a file that have these tags."""
    data, kinds, strings = (elf.section(it) for it in (".debug_info", ".debug_abbrev", ".debug_str"))
    at = 0
    while at + 11 <= len(data):
        reader = Reader(data, at)
        end = at + 4 + reader.take("I")
        version, table, address = reader.take("H"), reader.take("I"), reader.take("B")
        unit = Unit(at, version, address, abbreviations(kinds, table) if 2 <= version <= 4 else {})
        while unit.kinds and reader.at < end:
            offset, code = reader.at, reader.number()
            if code:
                tag, pairs = unit.kinds[code]
                found = {name: Attribute(form, attribute(reader, form, unit, strings)) for name, form in pairs}
                if tag in tags:
                    yield Entry(offset, tag, found)
                if tag == UNIT in tags:
                    break  # it is the first of its unit
        at = end


def spans(elf: Elf, found: Dict[int, Attribute]) -> List[Span]:
    """The byte addresses of a copy: one span, or those of a list."""
    if LOW in found and HIGH in found:
        low, high = found[LOW].number(), found[HIGH].number()
        return [(low, high if found[HIGH].form == 0x01 else low + high)]
    if RANGES not in found:
        return []
    base, reader = 0, Reader(elf.section(".debug_ranges"), found[RANGES].number())
    held: List[Span] = []
    while (pair := (reader.take("I"), reader.take("I"))) != (0, 0):
        base = pair[1] if pair[0] == 0xFFFFFFFF else base
        held += [(base + pair[0], base + pair[1])] if pair[0] != 0xFFFFFFFF else []
    return held


def read(elf: Elf) -> Dict[str, List[Span]]:
    """The spans of all copies by the names of their functions, those of the linker for C++ too."""
    names: Dict[int, List[str]] = {}
    origins: Dict[int, Optional[int]] = {}
    found_copies: List[Tuple[int, List[Span]]] = []
    for offset, tag, found in entries(elf):
        names[offset] = [str(found[it].value) for it in (NAME, *LINKAGE) if it in found]
        origins[offset] = next((found[it].number() for it in (ORIGIN, SPECIFICATION) if it in found), None)
        if tag == INLINED:
            found_copies.append((offset, spans(elf, found)))
    held: Dict[str, List[Span]] = {}
    for offset, parts in found_copies:
        told: List[str] = []
        at: Optional[int] = offset
        while at is not None:
            told += names.get(at, [])
            at = origins.get(at)
        for name in set(told):
            held.setdefault(name, []).extend(parts)
    return held


@functools.lru_cache(maxsize=None)
def copies(elf: Elf) -> Dict[str, List[Span]]:
    """The spans by names; none without debug information, or as far as it can be read."""
    try:
        return read(elf)
    except (struct.error, ValueError, IndexError, KeyError):
        return {}
