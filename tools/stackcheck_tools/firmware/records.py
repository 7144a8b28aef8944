"""The linker's own records in an ELF file (`-Wl,--emit-relocs`): which words of code a firmware names otherwise than by a call or a
jump."""

from __future__ import annotations

import functools
import struct
from typing import FrozenSet, Iterable, List, NamedTuple, Optional, Set, Tuple

from stackcheck_tools.firmware.elf import ABSOLUTE, ALLOCATED, BOUNDS, CODE_END, EXECUTED, Elf, text_at

RECORDS = 4  # the type of sections of records
UNDEFINED = 0
BRANCHES = (2, 3, 18)  # R_AVR_7_PCREL, R_AVR_13_PCREL, R_AVR_CALL
DIFFERENCES = {30: 1, 31: 2, 32: 4}  # R_AVR_DIFF8 and so on, with their bytes
IN_WORDS = (5, 12, 13, 24, 25)  # those of a number of words, R_AVR_16_PM and so on; the negative ones begin tables
THIRD = (14, 17)  # those of the third byte of a number of words, R_AVR_HH8_LDI_PM and its negative: no pointer has one


class Record(NamedTuple):
    """A record: where it stands, its type, the address that it names, the address and the section of its symbol, and the symbol's name."""

    place: int
    kind: int
    address: int
    base: int
    section: int
    name: str


def sections(elf: Elf) -> List[Tuple[int, ...]]:
    """The headers of the records of sections that take memory."""
    return [it for it in elf.headers if it[1] == RECORDS and it[7] < len(elf.headers) and elf.headers[it[7]][2] & ALLOCATED]


def has_records(elf: Elf) -> bool:
    """Whether the linker's records of the code are kept in the file."""
    return any(elf.headers[it[7]][2] & EXECUTED for it in sections(elf))


def constructor_lists(elf: Elf) -> Tuple[int, int]:
    """The span of byte addresses of the lists of constructors and destructors."""
    begin = elf.all.get("__ctors_start", 0)
    return begin, max(elf.all.get("__dtors_end", begin), elf.all.get("__ctors_end", begin))


@functools.lru_cache(maxsize=None)
def every(elf: Elf) -> Tuple[Record, ...]:
    """All records of the sections that take memory."""
    found = []
    for header in sections(elf):
        table = elf.headers[header[6]]
        names = elf.headers[table[6]][4]
        for at in range(header[4], header[4] + header[5] - 11, 12):
            place, info, addend = struct.unpack_from("<IIi", elf.data, at)
            name, value, _, _, _, section = struct.unpack_from("<IIIBBH", elf.data, table[4] + 16 * (info >> 8))
            found.append(Record(place, info & 0xFF, value + addend, value, section, text_at(elf.data, names + name)))
    return tuple(found)


def names_code(record: Record) -> bool:
    """Whether a record names a place of code otherwise than by a branch. The linker's own marks are none, nor are symbols without a
    section."""
    return record.kind not in (*BRANCHES, *DIFFERENCES, *THIRD) and record.section not in (UNDEFINED, ABSOLUTE) \
        and not record.name.startswith(BOUNDS) and record.address % 2 == 0 and 0 <= record.address < CODE_END


@functools.lru_cache(maxsize=None)
def named(elf: Elf) -> Tuple[Record, ...]:
    """The records that name a place of code, but for those in the lists of constructors and destructors."""
    begin, end = constructor_lists(elf)
    return tuple(it for it in every(elf) if names_code(it) and not begin <= it.place < end)


def words(elf: Elf) -> Set[int]:
    """The words of all places of code that records name."""
    return {it.address // 2 for it in named(elf)}


@functools.lru_cache(maxsize=None)
def differences(elf: Elf) -> FrozenSet[int]:
    """The words of both places of code whose difference a record notes: the linker may change it, so that the compiler has named both."""
    found: Set[int] = set()
    for it in every(elf):
        size = DIFFERENCES.get(it.kind, 0)
        held = elf.flash[it.place:it.place + size] if it.place < CODE_END else elf.at_data_address(it.place, size)
        if size and held and it.section not in (UNDEFINED, ABSOLUTE) and 0 <= it.address < CODE_END:
            found |= {it.address, it.address - int.from_bytes(held, "little", signed=True)}
    return frozenset(it // 2 for it in found if it % 2 == 0 and it >= 0)


@functools.lru_cache(maxsize=None)
def ends(elf: Elf) -> FrozenSet[int]:
    """The addresses right behind objects."""
    return frozenset(at + size for at, size in elf.objects.values() if size)


def lies_between(elf: Elf, address: int) -> bool:
    """Whether a byte address is one of code that lies in no function with a size, in no object, and not in the lists of constructors."""
    begin, end = constructor_lists(elf)
    symbol = elf.symbol_at(address)
    return not (begin <= address < end or symbol and symbol.size or any(at <= address < at + size for at, size in elf.objects.values())) \
        and any(it[2] & EXECUTED and it[3] <= address < it[3] + it[5] for it in elf.headers)


def taken(elf: Elf, but: Iterable[Tuple[int, int]] = ()) -> Optional[Set[int]]:
    """The words of the functions whose address is taken: of each function or label that begins where a record names, and of what has no
    name there; one behind an object it is the object's end, but for a number of words. Records within some spans of addresses are left out.
    None where the file has no records."""
    if not has_records(elf):
        return None
    begins, spans = set(elf.addresses), list(but)
    found = (it for it in named(elf) if it.address in begins and (it.kind in IN_WORDS or it.address not in ends(elf))
             or it.kind in IN_WORDS and lies_between(elf, it.address))
    return {elf.pointed(it.address) // 2 for it in found if not any(begin <= it.place < end for begin, end in spans)}


def places(elf: Elf) -> Set[int]:
    """Where records of this file stand: what is written there is an address of a function or an object, or a half of one."""
    return {it.place for it in every(elf)}
