"""An ELF file of avr-gcc: flash, symbols, and the device that it was linked for."""

from __future__ import annotations

import array
import bisect
import functools
import re
import struct
import sys
from typing import Dict, Iterator, List, Optional, Tuple

from stackcheck_tools.finding import Fault
from stackcheck_tools.firmware.devices import Device, default, named

FLASH = 0x40000  # bytes of the largest device
LEAST_WORDS = 0x4000  # below which no word address goes round
CODE_END = 0x800000  # from here on addresses are of data
EEPROM = 0x810000  # behind the sections of data in SRAM
ALLOCATED, EXECUTED = 2, 4  # flags of sections that take memory, and that hold code
OBJECT, FUNCTION, FILE_NAME = 1, 2, 4  # types of symbols
ABSOLUTE = 0xFFF1  # the section number of symbols that are no place in a section
STUBS = ("__trampolines_start", "__trampolines_end")  # around the stubs by which pointers reach functions above 128 KiB
REACHED = 0x20000  # the byte address up to which a pointer of two bytes reaches
JMP = 0x940C
BOUNDS = ("__ctors_", "__dtors_", "__trampolines_", "__vector_default", "_etext", "__TEXT_REGION", "__data_load")  # the linker's own marks


class NoElf(Fault):
    """The file is not an ELF file of an AVR that these tools read."""

    rule = "SB002"


class Symbol:
    """A symbol of code: its name, byte address, size in bytes (0: not told), whether it is a function, its source file where it is local,
    and whether other files see it."""

    def __init__(self, name: str, address: int, size: int, is_function: bool, file: str, is_global: bool = False) -> None:
        self.name, self.address, self.size, self.is_function, self.file, self.is_global = name, address, size, is_function, file, is_global

    def end(self) -> int:
        return self.address + self.size


def text_at(data: bytes, offset: int) -> str:
    return data[offset:data.index(b"\0", offset)].decode("ascii", "replace")


def what_else(data: bytes) -> Optional[str]:
    """What a file is, where it is no linked ELF file of an AVR; None where it is one."""
    if data[:4] != b"\x7fELF":
        if re.match(rb"\s*:[0-9A-Fa-f]{10}", data):
            return ("is a file of Intel HEX, which has no names and no sections: give the ELF file from which it was made, "
                    "or read it with `stackcheck --device NAME`")
        if data[:7] == b"!<arch>":
            return "is a library (.a) and not a linked firmware: give the ELF file that the linker writes"
        return "is not an AVR ELF file"
    kind, machine = struct.unpack_from("<HH", data, 16) if len(data) >= 52 else (0, 0)
    if data[4:7] != b"\x01\x01\x01" or machine != 83:
        return "is not an AVR ELF file"
    if kind == 1:
        return "is an object file (.o) and not linked: give the ELF file that the linker writes"
    return None if kind == 2 else "is not an AVR ELF file"


class Elf:
    """`path` is the file's name, `flash` has 131,072 bytes (FF where nothing is placed), `placed` the begin and the end of each part of it,
    `code` the symbols of code by address, `all` the addresses of all names, `objects` address and size of those of data, `has_local`
    whether names are there that other files don't see, `chip` the device as whose code it is read: that of its note, and else the one that
    stackbound takes."""

    def __init__(self, path: str) -> None:
        self.path = path
        with open(path, "rb") as file:
            self.data = file.read()
        if fault := what_else(self.data):
            raise NoElf(f"{path} {fault}")
        try:
            self.read()
        except (struct.error, ValueError, IndexError):
            raise NoElf(f"{path} is damaged: a header or a name lies outside it") from None

    def read(self) -> None:
        head = struct.unpack_from("<IIIIHHHHHH", self.data, 24)
        self.flash = bytearray(b"\xff" * FLASH)
        self.flash_end = 0
        self.loaded, self.placed = [], []
        for n in range(head[6]):
            kind, offset, address, place, size = struct.unpack_from("<IIIII", self.data, head[1] + n * head[5])
            if kind == 1:
                self.loaded.append((address, size, offset))
                self.placed += [(place, place + size)] * bool(size and place < CODE_END)
            if kind == 1 and size and place < CODE_END and place + size <= FLASH:
                self.flash[place:place + size] = self.data[offset:offset + size]
                self.flash_end = max(self.flash_end, place + size)
        self.headers = [struct.unpack_from("<IIIIIIIIII", self.data, head[2] + n * head[7]) for n in range(head[8])]
        self.sections = {}
        if self.headers:
            names = self.headers[head[9]][4]
            self.sections = {text_at(self.data, names + it[0]): it for it in self.headers}
        self.read_symbols()
        self.take_for(named(self.device()) or default())

    def take_for(self, chip: Device) -> None:
        """Reads the code as that of a device from now on."""
        self.chip, self.around = chip, max(chip.words, LEAST_WORDS)

    def sram(self) -> int:
        """Where sections of data in SRAM begin."""
        return CODE_END + self.chip.first

    def section(self, name: str) -> bytes:
        """The bytes of the section of this name; none where there is no such section."""
        header = self.sections.get(name)
        return b"" if header is None or header[1] == 8 else self.data[header[4]:header[4] + header[5]]

    def read_symbols(self) -> None:
        self.code: List[Symbol] = []
        self.all: Dict[str, int] = {}
        self.objects: Dict[str, Tuple[int, int]] = {}
        self.has_local, file = False, ""
        for table in (it for it in self.headers if it[1] == 2):
            names = self.headers[table[6]][4]
            for at in range(table[4], table[4] + table[5] - 15, 16):
                name, address, size, info, _, section = struct.unpack_from("<IIIBBH", self.data, at)
                name, kind = text_at(self.data, names + name), info & 15
                if kind == FILE_NAME:
                    file = name
                elif name and section:
                    self.has_local = self.has_local or info >> 4 == 0 and kind in (0, OBJECT, FUNCTION)
                    self.all.setdefault(name, address)
                    if kind == OBJECT:
                        self.objects[name] = address, size
                    is_code = address < CODE_END and section != ABSOLUTE and kind in (0, FUNCTION)
                    if is_code and not name.startswith((".", *BOUNDS)) and name.isprintable():
                        self.code.append(Symbol(name, address, size, kind == FUNCTION, file if info >> 4 == 0 else "", info >> 4 == 1))
        self.stub_at: Dict[int, int] = {}
        self.code += list(self.stubs({it.address: it.name for it in self.code if it.is_function}))
        self.code.sort(key=lambda it: (it.address, not it.is_function, it.name))
        self.addresses = [it.address for it in self.code]
        self.starts = sorted(set(self.addresses))
        self.found_at: Dict[int, Optional[Symbol]] = {}

    def stubs(self, names: Dict[int, str]) -> Iterator[Symbol]:
        """Yields the linker's stubs as functions `NAME@stub`: each is a `jmp` to a function that a pointer of 16 bits does not reach."""
        for at in range(self.all.get(STUBS[0], 0), self.all.get(STUBS[1], 0) - 3, 4):
            opcode, low = struct.unpack_from("<HH", self.flash, at)
            to = 2 * ((opcode >> 3 & 0x3E | opcode & 1) << 16 | low)
            if opcode & 0xFE0E == JMP and to in names:
                self.stub_at[to] = at
                yield Symbol(f"{names[to]}@stub", at, 4, True, "")

    def pointed(self, address: int) -> int:
        """Where a pointer to the function at a byte address leads: to its stub, where there is one and a pointer doesn't reach it."""
        return self.stub_at.get(address, address) if address >= REACHED else address

    def extent(self, symbol: Symbol) -> Tuple[int, int]:
        """The byte addresses from a symbol's begin to its end: its size where told, else up to the next symbol."""
        if symbol.size:
            return symbol.address, symbol.end()
        after = bisect.bisect_right(self.starts, symbol.address)
        return symbol.address, self.starts[after] if after < len(self.starts) else self.flash_end

    def symbol_at(self, address: int) -> Optional[Symbol]:
        """The symbol in whose extent a byte address lies: the innermost function with a size, else the last symbol before; or None."""
        if address not in self.found_at:
            self.found_at[address] = self.find_at(address)
        return self.found_at[address]

    def find_at(self, address: int) -> Optional[Symbol]:
        before = self.code[:bisect.bisect_right(self.addresses, address)]
        sized = [it for it in before if it.size and address < it.end()]
        if sized:
            last = sized[-1].address
            return next(it for it in sized if it.address == last)
        if not before or address >= self.flash_end:
            return None
        last = before[-1].address
        return next(it for it in before if it.address == last)

    def named(self, name: str) -> List[Symbol]:
        """The symbols of code that a name means: NAME, or FILE:NAME for a local one."""
        file, _, own = name.rpartition(":")
        return [it for it in self.code if it.name == own and (not file or it.file == file)]

    def static_end(self) -> Optional[int]:
        """The data address behind the last section of data in SRAM, `.bss` among them; None where there is none, or no section headers."""
        ends = [it[3] + it[5] - CODE_END for it in self.headers if it[2] & ALLOCATED and it[5] and self.sram() <= it[3] < EEPROM]
        return max(ends, default=None)

    def device(self) -> Optional[str]:
        """The device that the file was linked for by its note, as the compiler calls it; None without a note."""
        note = self.section(".note.gnu.avr.deviceinfo").rstrip(b"\0")
        return note.rpartition(b"\0")[2].decode("ascii", "replace") or None if note else None

    def at_data_address(self, address: int, size: int = 2) -> Optional[bytes]:
        """The initial bytes at a data address (0x800000 and up); None where the file has none."""
        for begin, length, offset in self.loaded:
            if begin <= address and address + size <= begin + length:
                return self.data[offset + address - begin:offset + address - begin + size]
        return None

    @functools.cached_property
    def words(self) -> array.array[int]:
        """The words of flash, which are read once all is placed."""
        found = array.array("H", bytes(self.flash))
        if sys.byteorder == "big":
            found.byteswap()
        return found

    def word(self, word: int) -> int:
        return self.words[word % self.around]
