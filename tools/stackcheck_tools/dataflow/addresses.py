"""What the addresses in a firmware are of, by the linker's records, or else by its symbols: objects, functions, places of flash."""

from __future__ import annotations

import bisect
from typing import Dict, List, Optional, Tuple

from stackcheck_tools.dataflow import virtual_calls
from stackcheck_tools.dataflow.origin import CODE, MOVED, NUMBER, OTHER, TABLE, ZERO, object_bit
from stackcheck_tools.firmware import candidates, effects, records, switches, virtual_tables
from stackcheck_tools.firmware.elf import ABSOLUTE, ALLOCATED, CODE_END, EEPROM, Elf
from stackcheck_tools.firmware.records import Record

NEAR = 6  # words within which the two halves of an address are looked for where no record tells them
LEAST_IN_FLASH = 0x100  # below which a number without a record isn't taken for an address in flash
NEGATED = (9, 10, 11, 15, 16, 17, 23)  # types of records of a negated address
OF_CODE = (5, 12, 13, 14, 15, 16, 17, 24, 25)  # those of a number of words
OF_TWO_BYTES = (4, 5)


class Addresses:
    """`spans`: begin and end of each object in SRAM, whose places in this list are their numbers. `tables`: the bits of those that are tables of
    virtual functions, and `table_bytes`: how far behind the pointer of an object one ends at most."""

    def __init__(self, elf: Elf) -> None:
        self.elf, self.has_records = elf, records.has_records(elf)
        self.spans = sorted({(at - CODE_END, at - CODE_END + max(size, 1)) for at, size in elf.objects.values() if CODE_END <= at < EEPROM})
        self.begins = [it[0] for it in self.spans]
        self.data = [(it[3] - CODE_END, it[3] - CODE_END + it[5]) for it in elf.headers
                     if it[2] & ALLOCATED and it[5] and elf.sram() <= it[3] < EEPROM]
        numbers = [self.number_at(begin - CODE_END) for begin, _ in virtual_tables.spans(elf)]
        self.tables = sum({object_bit(it) for it in numbers if it is not None})
        self.with_function: Dict[int, int] = {}
        self.table_bytes = max((2 * len(it.words) for it in virtual_tables.points(elf)), default=0)
        self.functions = {it.address // 2 for it in elf.code}
        if not self.has_records:
            self.functions |= {word for site in candidates.indirect(elf) for word in switches.labels(elf, site)}
        self.firsts: Dict[int, int] = {}
        self.named: Dict[int, List[Record]] = {}
        for record in records.every(elf) if self.has_records else ():
            is_placed = record.section not in (records.UNDEFINED, ABSOLUTE) or record.section and record.base >= CODE_END
            if record.kind not in (0, *records.BRANCHES) and is_placed:
                self.named.setdefault(record.place, []).append(record)

    def tables_with(self, function: int) -> int:
        """The bits of the tables of virtual functions in which a function stands whose address is taken nowhere else; 0 of another one."""
        if self.tables and function not in self.with_function:
            found = {self.object_at(it.address - CODE_END) & self.tables for it in virtual_tables.tables(self.elf) if function in it.words}
            is_alone = found and function not in virtual_calls.taken_by(self.elf, virtual_tables.spans(self.elf))
            self.with_function[function] = sum(found) if is_alone else 0
        return self.with_function.get(function, 0)

    def number_at(self, address: int) -> Optional[int]:
        """The number of the object at an address of SRAM; None where none has a name there."""
        at = bisect.bisect_right(self.begins, address) - 1
        return at if at >= 0 and self.spans[at][0] <= address < self.spans[at][1] else None

    def object_at(self, address: int) -> int:
        """The bit of the object at an address of SRAM, with the mark of a pointer that isn't at its begin."""
        number = self.number_at(address)
        if number is None:
            return OTHER
        return object_bit(number) | (MOVED if address != self.spans[number][0] else 0)

    def in_data(self, address: int) -> bool:
        """Whether a number is the address of static data, or one behind."""
        return any(begin <= address <= end for begin, end in self.data)

    def of_record(self, record: Record) -> int:
        """What the address of a record is of: an object's by the address itself, else by its symbol."""
        if max(record.address, record.base) >= CODE_END:
            if record.base >= EEPROM:
                return NUMBER
            found = self.object_at(record.address - CODE_END)
            return found if found != OTHER else self.object_at(record.base - CODE_END) | MOVED
        if record.kind in OF_CODE:
            return CODE
        return TABLE | (CODE if record.address // 2 in self.functions else 0)

    def of_immediate(self, word: int, to: int, byte: int, is_load: bool) -> int:
        """What the byte of an instruction is made of that is loaded into a register, or subtracted from it."""
        if not self.has_records:
            return self.by_symbols(word, to, byte, is_load) or 1 << byte
        found = 0
        for it in self.named.get(2 * word, ()):
            found |= self.of_record(it)
        return found or 1 << byte

    def is_subtracted(self, word: int) -> bool:
        """Whether `subi` or `sbci` at a word subtracts an address as it is, not a negated one."""
        return any(it.kind not in NEGATED for it in self.named.get(2 * word, ()))

    def by_symbols(self, word: int, to: int, byte: int, is_load: bool) -> int:
        """The same by the other half of the pair, which stands near."""
        if is_load and (found := self.by_moves(word)):
            return found
        for near in range(max(word - NEAR, 0), word + NEAR + 1):
            effect = effects.of_byte(self.elf.word(near))
            is_half = isinstance(effect, effects.Constant) if is_load else isinstance(effect, effects.Sum) and effect.is_less
            if near != word and is_half and isinstance(effect, (effects.Constant, effects.Sum)) and effect.to == to ^ 1:
                low, high = (byte, effect.byte) if to % 2 == 0 else (effect.byte, byte)
                if found := self.of_number(low | high << 8 if is_load else -(low | high << 8) & 0xFFFF, is_load):
                    return found
        return 0

    def of_number(self, number: int, is_load: bool) -> int:
        """What a number of two bytes is, as the symbols tell; 0 where they tell nothing."""
        if self.in_data(number):
            return self.object_at(number)
        if not is_load or not number:
            return 0
        if number in self.functions:
            return CODE
        vectors = 2 * self.elf.chip.vector_words
        return TABLE if max(vectors + 1, LEAST_IN_FLASH) <= number < self.elf.flash_end else 0

    def by_moves(self, word: int) -> int:
        """The same of halves that are loaded one behind the other into one register, and moved from it."""
        def moved(at: int) -> Optional[Tuple[int, int, int]]:
            load = effects.of_byte(self.elf.word(at))
            copy = effects.of_two(self.elf.word(at + 1))
            if isinstance(load, effects.Constant) and isinstance(copy, effects.Copy) and (copy.size, copy.of) == (1, load.to):
                return copy.to, load.byte, load.to
            return None

        own = moved(word)
        for near in (word - 2, word + 2, word - 3, word + 3) if own else ():
            other = moved(near) if near >= 0 else None
            if own and other and other[0] == own[0] ^ 1:
                low, high = (own[1], other[1]) if own[0] % 2 == 0 else (other[1], own[1])
                if self.in_data(low | high << 8):
                    return self.object_at(low | high << 8)
        return 0

    def first_value(self, address: int) -> int:
        """What a byte of static data holds first."""
        if address not in self.firsts:
            self.firsts[address] = self.look_first(address)
        return self.firsts[address]

    def look_first(self, address: int) -> int:
        at, found = address + CODE_END, 0
        for place in (at, at - 1):
            for it in self.named.get(place, ()):
                if place == at or it.kind in OF_TWO_BYTES:
                    found |= self.of_record(it)
        value = self.elf.at_data_address(at, 1)
        if found or value is None:
            return found or ZERO
        for place in (at, at - 1) if not self.has_records else ():
            pair = self.elf.at_data_address(place, 2)
            number = int.from_bytes(pair, "little") if pair else 0
            if number and self.in_data(number):
                found |= self.object_at(number)
            if number and number in self.functions:
                found |= CODE
        return found or 1 << value[0]
