"""Where an indirect transfer may go: functions, constructors of static objects, tables of `switch`, virtual functions, and what has its
address taken."""

from __future__ import annotations

import struct
from typing import Iterable, Iterator, List, Optional, Set, Tuple

from stackcheck_tools.firmware import opcodes
from stackcheck_tools.firmware.elf import Elf
from stackcheck_tools.firmware.names import SpecFault, base, function

NEAR = 4  # how many instructions the two halves of an address are apart, at most
NONE = ("main", "exit", "_exit", "abort")  # functions that nothing calls through a pointer


def constructors(elf: Elf) -> Set[int]:
    """The words of the constructors of static objects, from the list that the start-up code walks through."""
    begin, end = elf.all.get("__ctors_start", 0), elf.all.get("__ctors_end", 0)
    if begin == end:
        raise SpecFault("the firmware has no constructors")
    return {elf.word(at // 2) for at in range(begin, end, 2)}


def tables(elf: Elf) -> Set[int]:
    """The words of all tables of `switch` that are jumped through by `__tablejump2__`, a table as far as its words lie in its function."""
    helper = [it.address // 2 for it in elf.named("__tablejump2__")]
    found = []
    for symbol in elf.code:
        for word, _ in opcodes.words_of(elf, symbol) if symbol.is_function else ():
            table = opcodes.table_before(elf, word) if opcodes.jump_target(elf, word) in helper else None
            if table is not None:
                found.append((table, symbol))
    if not found:
        raise SpecFault("no function jumps through a table of __tablejump2__")
    starts, targets = {table for table, _ in found}, set()
    for table, symbol in found:
        begin, end = elf.extent(symbol)
        at = table
        while begin <= 2 * elf.word(at) < end and (at == table or at not in starts):
            targets.add(elf.word(at))
            at += 1
    return targets


def virtual(elf: Elf, name: str, number: str) -> int:
    """The word of the N-th virtual function, counted from 1, of a class by its table in the image of initialised data."""
    parts = name.split("::")
    mangled = "".join(f"{len(it)}{it}" for it in parts)
    at = elf.all.get(f"_ZTV{mangled}" if len(parts) == 1 else f"_ZTVN{mangled}E")
    if at is None:
        raise SpecFault(f"there is no table of virtual functions of a class {name}")
    if not number.isdecimal() or int(number) < 1:
        raise SpecFault(f"{number} is no number of a virtual function: they count from 1")
    data = elf.at_data_address(at + 4 + 2 * (int(number) - 1))
    word = int(struct.unpack("<H", data)[0]) if data else 0
    if not word or not any(it.address == 2 * word for it in elf.code):
        raise SpecFault(f"class {name} has no virtual function number {number}")
    return word


def addresses_loaded(elf: Elf) -> Iterator[int]:
    """Numbers of two bytes that a pair of `ldi` loads into a register and the next one, the two a few instructions apart at most."""
    for symbol in elf.code:
        halves: List[Optional[Tuple[int, int]]] = []
        for _, opcode in opcodes.words_of(elf, symbol) if symbol.is_function else ():
            if opcode & 0xF000 == 0xE000:
                register, byte = 16 + (opcode >> 4 & 15), opcode & 15 | opcode >> 4 & 0xF0
                yield from (byte << 8 | other for it, other in (half for half in halves if half) if it == register - 1)
                yield from (other << 8 | byte for it, other in (half for half in halves if half) if it == register + 1)
                halves.append((register, byte))
            else:
                halves.append(None)
            del halves[:-NEAR]


def words_in_data(elf: Elf, but: Iterable[Tuple[int, int]] = ()) -> Iterator[int]:
    """Numbers of two bytes at each place of the image of initialised data, and of what stands in flash between the vectors and the code;
    those that begin within one of some spans of addresses are left out."""
    for address, size, offset in elf.loaded:
        if elf.sram() <= address < elf.sram() + 0x10000:
            data = elf.data[offset:offset + size]
            yield from (struct.unpack_from("<H", data, at)[0] for at in range(len(data) - 1)
                        if not any(begin <= address + at < end for begin, end in but))
    code = min((it.address for it in elf.code if it.is_function or it.name == "__init"), default=0)
    for at in range(elf.all.get("__trampolines_start", 2), elf.all.get("__ctors_start", code)):
        yield struct.unpack_from("<H", elf.flash, at)[0]


def starts(elf: Elf) -> Set[int]:
    """The words of the functions that something may call through a pointer."""
    return {it.address // 2 for it in elf.code if it.is_function and base(it.name) not in NONE and not it.name.startswith("__")}


def taken(elf: Elf) -> Set[int]:
    """The words of the functions whose address is taken: by a pair of `ldi`, in the image of initialised data, or in a table in flash."""
    return starts(elf) & {*addresses_loaded(elf), *words_in_data(elf)}


def targets(elf: Elf, words: List[str]) -> Set[int]:
    words = list(words)
    found: Set[int] = set()
    while words:
        word = words.pop(0)
        if word == "@constructors":
            found |= constructors(elf)
        elif word == "@tables":
            found |= tables(elf)
        elif word == "@taken":
            found |= taken(elf)
            if not found:
                raise SpecFault("no function has its address taken")
        elif word == "@vtable":
            if len(words) < 2:
                raise SpecFault("@vtable takes a class and a number")
            found.add(virtual(elf, words.pop(0), words.pop(0)))
        elif word.startswith("@"):
            raise SpecFault(f"{word} is none of @constructors, @tables, @taken and @vtable")
        else:
            found.add(function(elf, word).address // 2)
    return found
