"""Whether the pointer of a store or a call may be made of a number that a program doesn't get from the address of an object or function."""

from __future__ import annotations

import functools
from typing import AbstractSet, FrozenSet, Iterator, Optional, Set, Tuple

from stackcheck_tools.dataflow import loaded, virtual_calls
from stackcheck_tools.dataflow.addresses import Addresses
from stackcheck_tools.dataflow.origin import ALONE, FLASH, KEPT, MOVED, NUMBER, OBJECTS, POINTERS, VIRTUAL, constants, is_number
from stackcheck_tools.dataflow.origins import Origins
from stackcheck_tools.firmware import effects, virtual_tables
from stackcheck_tools.firmware.effects import Z
from stackcheck_tools.firmware.elf import CODE_END, EEPROM
from stackcheck_tools.firmware.taken import pieces

MADE = "is made of a number"
IN_FLASH = "is read from a table in flash that has this number"
IN_DATA = "is read from memory that has this number first"
ADDED = "is something added to a pointer that was read from memory"
KEPT_VIRTUAL = "may be a virtual function that was read from a table and kept, as of a pointer to a member that is made a plain one"


def is_address(told: Addresses, place: int) -> bool:
    """Whether a record stands at two bytes."""
    return any(it in told.named for it in (place - 1, place, place + 1))


@functools.lru_cache(maxsize=None)
def numbers_kept(told: Addresses) -> FrozenSet[int]:
    """The numbers of two bytes that static data holds first and that aren't known to be addresses."""
    elf, found = told.elf, set()
    tables = () if told.has_records else virtual_tables.spans(elf)
    for at, size in elf.objects.values():
        for place in range(at, at + size - 1) if CODE_END <= at < EEPROM else ():
            pair = elf.at_data_address(place, 2)
            if pair and not is_address(told, place) and not any(begin <= place + 1 and place < end for begin, end in tables):
                found.add(int.from_bytes(pair, "little"))
    return frozenset(found)


@functools.lru_cache(maxsize=None)
def numbers_in_flash(told: Addresses) -> FrozenSet[int]:
    """The same of what stands in flash and is no function's code."""
    return frozenset(piece[at] | piece[at + 1] << 8 for address, piece in pieces(told.elf) if address < CODE_END
                     for at in range(len(piece) - 1) if not is_address(told, address + at))


def may_be(byte: int, number: int) -> bool:
    """Whether a byte may be a number that isn't a part of a pointer."""
    return bool(byte & (NUMBER | ALONE) or byte >> number & 1 or not byte)


class Pointers:
    """What stores and calls through pointers are made of."""

    def __init__(self, origins: Origins) -> None:
        self.origins, self.told, self.elf = origins, origins.told, origins.elf

    def span(self, word: int, register: int) -> Tuple[int, int]:
        """The least and the greatest number that comparisons leave of a pair at a word."""
        near = self.origins.run.nearby(word)
        if near is not None:
            pair, more = loaded.pair_of(near.bytes[register], near.bytes[register + 1])
            for known, least, greatest in near.spans:
                if known == pair and 0 <= least + more <= greatest + more <= 0xFFFF:
                    return least + more, greatest + more
        return 0, 0xFFFF

    def is_swapped(self, word: int, register: int) -> bool:
        """Whether the halves of a pair were read the other way round, so that it is no pointer that was read as one."""
        near = self.origins.run.nearby(word)
        if near is None:
            return False
        (low, high), _ = loaded.pair_of(near.bytes[register], near.bytes[register + 1])
        return loaded.are_halves(high, low)

    def why_written(self, word: int, address: int) -> Optional[str]:
        """Why the store at a word may be one through a number that is an address; None where it isn't."""
        store = effects.at(self.elf, word)
        if not isinstance(store, effects.Store):
            return None
        wanted = (address - store.more) & 0xFFFF
        if not self.origins.is_reached(word):
            return MADE
        least, greatest = self.span(word, store.pair)
        if not least <= wanted <= greatest:
            return None
        if self.is_swapped(word, store.pair):
            return MADE
        return next(self.why(wanted, self.origins.pairs_at(word, store.pair)), None)

    def why(self, wanted: int, pairs: Iterator[Tuple[int, int]]) -> Iterator[str]:
        for low, high in pairs:
            is_widened = not high & POINTERS and low & POINTERS and (self.elf.chip.has_sph or not low & OBJECTS)
            if (is_widened or may_be(low, wanted & 0xFF)) and may_be(high, wanted >> 8):
                yield MADE
            elif (low | high) & FLASH and wanted in numbers_in_flash(self.told):
                yield IN_FLASH
            elif high & KEPT and not high & MOVED and wanted in numbers_kept(self.told):
                yield IN_DATA

    def why_called(self, word: int, listed: AbstractSet[int]) -> Optional[str]:
        """Why the call or jump at a word may enter a number that its list doesn't have; None where it doesn't."""
        symbol = self.elf.symbol_at(2 * word)
        if symbol is not None and symbol.name.startswith(loaded.TABLES):
            return None
        if not self.origins.is_reached(word):
            return MADE
        if self.is_swapped(word, Z):
            return MADE
        if self.may_be_virtual(word) and not self.virtual_functions() <= listed:
            return KEPT_VIRTUAL
        return next(self.why_entered(listed, self.origins.pairs_at(word, Z)), None)

    def virtual_functions(self) -> Set[int]:
        return {word for it in virtual_tables.tables(self.elf) for word in it.words if virtual_tables.is_function(self.elf, word)}

    def may_be_virtual(self, word: int) -> bool:
        """Whether the pointer of a call that reads no table of its object may be a function that was read from one before: it is read from
        memory to which such a function may have been written."""
        call = virtual_calls.of_site(self.elf, word) if self.told.tables else None
        if call is None or call.points is not None:
            return False
        pairs = [low | high for low, high in self.origins.pairs_at(word, Z)]
        return any(it & VIRTUAL or it & (KEPT | FLASH) and self.origins.keeps_virtual() for it in pairs) if call.place is None \
            else self.origins.keeps_virtual()

    def why_entered(self, listed: AbstractSet[int], pairs: Iterator[Tuple[int, int]]) -> Iterator[str]:
        handled = self.elf.chip.vector_words * self.elf.chip.last_vector
        for low, high in pairs:
            if is_number(low) and is_number(high):
                numbers: Set[int] = {upper << 8 | lower for upper in constants(high) for lower in constants(low)}
                if (low | high) & (NUMBER | ALONE) or not low or not high or any(it not in listed and it >= handled for it in numbers):
                    yield MADE
            if (low | high) & MOVED and (low | high) & (KEPT | FLASH):
                yield ADDED
