"""The functions whose address a firmware takes: all that a call through a pointer enters, if it keeps to its functions. By the linker's
records, or else by a search in the file."""

from __future__ import annotations

import functools
from typing import AbstractSet, Dict, FrozenSet, Iterator, List, Sequence, Set, Tuple

from stackcheck_tools.firmware import nameless, opcodes, records
from stackcheck_tools.firmware.candidates import code, entered
from stackcheck_tools.firmware.devices import Device
from stackcheck_tools.firmware.elf import ALLOCATED, CODE_END, Elf, Symbol
from stackcheck_tools.firmware.library_names import is_library
from stackcheck_tools.firmware.nameless import Span, code_begin, instructions
from stackcheck_tools.firmware.names import base

EEPROM_END = 0x820000


def is_left_out(name: str) -> bool:
    """Whether the search doesn't look for a function: `main`, a handler, a constructor of static objects, one of the compiler's own."""
    return name == "main" or name.startswith(("__vector_", "_GLOBAL__")) or is_library(name)


def is_inside(elf: Elf, symbol: Symbol) -> bool:
    """Whether a label stands within a function."""
    around = elf.symbol_at(symbol.address)
    return around is not None and around.address < symbol.address


@functools.lru_cache(maxsize=None)
def functions(elf: Elf) -> Dict[int, Span]:
    """The functions and labels that the search looks for, by their first words, with their spans."""
    found = {begin // 2: span for begin, span in nameless.pieces(elf).items()}
    for it in elf.code:
        if is_left_out(base(it.name)):
            found.pop(it.address // 2, None)
        elif it.is_function or it.address >= code_begin(elf) and not is_inside(elf, it):
            found.setdefault(it.address // 2, elf.extent(it))
    return found


def known_code(elf: Elf) -> List[Span]:
    """The spans that are no data: vectors, lists of constructors, functions with and without names, and the compiler's start-up code."""
    found = [(0, 2 * elf.chip.vector_words * elf.chip.last_vector), records.constructor_lists(elf)]
    found += [span for begin, span in nameless.pieces(elf).items() if begin // 2 in nameless.nameless(elf)]
    return found + [elf.extent(it) for it in elf.code if it.is_function or it.address >= code_begin(elf) and is_library(it.name)]


def flash_end(elf: Elf) -> int:
    """Where flash ends but for the first values of variables, which stand behind it."""
    return max((it[3] + it[5] for it in elf.headers if it[2] & ALLOCATED and it[3] < CODE_END), default=elf.flash_end)


@functools.lru_cache(maxsize=None)
def pieces(elf: Elf) -> List[Tuple[int, bytes]]:
    """The data of the file with their addresses: the images of SRAM and EEPROM, and flash that is no function's code."""
    found = [(address, elf.data[offset:offset + size]) for address, size, offset in elf.loaded if CODE_END <= address < EEPROM_END]
    begin = 0
    for first, end in [*sorted(known_code(elf)), (flash_end(elf), 0)]:
        if begin < first:
            found.append((begin, bytes(elf.flash[begin:first])))
        begin = max(begin, end)
    return found


def numbers_at(elf: Elf) -> Iterator[Tuple[int, int]]:
    """Yields the address and the number of each two bytes of the data, odd ones too."""
    for address, piece in pieces(elf):
        yield from ((address + at, piece[at] | piece[at + 1] << 8) for at in range(len(piece) - 1))


@functools.lru_cache(maxsize=None)
def numbers_in_data(elf: Elf) -> FrozenSet[int]:
    """The numbers of two bytes at each place of the data."""
    return frozenset(number for _, number in numbers_at(elf))


def parts(elf: Elf) -> Iterator[Sequence[Tuple[int, int]]]:
    """Yields (word, opcode) of each function, and of each piece of code without one; of all code where no function has a name."""
    if not elf.code:
        yield from code(elf)
    yield from (list(opcodes.words_of(elf, it)) for it in elf.code if it.is_function)
    yield from (instructions(elf, span) for span in nameless.pieces(elf).values())


@functools.lru_cache(maxsize=None)
def numbers_loaded(elf: Elf) -> FrozenSet[int]:
    """The numbers whose halves one function loads by `ldi` into a pair, however far apart and in whatever order."""
    found: Set[int] = set()
    for part in parts(elf):
        held: Dict[int, Set[int]] = {}
        for _, opcode in part:
            if opcodes.is_ldi(opcode):
                register, byte = opcodes.ldi(opcode)
                held.setdefault(register, set()).add(byte)
        for low in range(16, 32, 2):
            found |= {high << 8 | byte for high in held.get(low + 1, ()) for byte in held.get(low, ())}
    return frozenset(found)


def left_over(elf: Elf, device: Device, reached: Set[int]) -> Set[int]:
    """The functions that are linked for no reason that the file tells: no node lies in them, and no other function and no vector enters
    them."""
    by_name = {it for at, held in entered(elf).items() for it in held if it != at}
    by_name |= {to for span in nameless.pieces(elf).values() for word, _ in instructions(elf, span)
                if (to := opcodes.call_target(elf, word) or opcodes.jump_target(elf, word)) is not None and not span[0] <= 2 * to < span[1]}
    by_name |= {opcodes.jump_target(elf, device.vector_word(it)) or 0 for it in device.vectors}
    marks = sorted(reached)
    return {word for word, span in functions(elf).items() if span[0] >= code_begin(elf) and word not in by_name
            and not any_between(marks, span)}


def any_between(marks: List[int], span: Span) -> bool:
    return any(span[0] <= 2 * it < span[1] for it in marks)


@functools.lru_cache(maxsize=None)
def searched(elf: Elf, but: Tuple[Span, ...] = ()) -> FrozenSet[int]:
    """The functions that the search finds, but for those whose numbers begin within some spans of data addresses alone."""
    in_data: AbstractSet[int] = numbers_in_data(elf)
    if but:
        in_data = {number for at, number in numbers_at(elf) if not any(begin <= at < end for begin, end in but)}
    return frozenset(functions(elf)) & (in_data | numbers_loaded(elf))
