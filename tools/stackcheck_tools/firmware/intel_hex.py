"""A file of Intel HEX: its records, the flash that they hold, and what start-up code tells of static data.

The format: Intel, Hexadecimal Object File Format Specification, revision A, 1988. avr-objcopy puts the bytes of EEPROM, fuses, lock bits
and signature at 810000 and behind, where no flash is. """

from __future__ import annotations

import os
import re
from typing import Dict, Iterator, List, NamedTuple, Optional

from stackcheck_tools.firmware import start_up
from stackcheck_tools.firmware.devices import DEFAULT, of_class
from stackcheck_tools.firmware.elf import CODE_END, FLASH, Elf, NoElf
from stackcheck_tools.firmware.firmware import Firmware

DATA, END, SEGMENT, SEGMENT_START, LINEAR, LINEAR_START = range(6)  # types of records
LENGTHS = {END: 0, SEGMENT: 2, SEGMENT_START: 4, LINEAR: 2, LINEAR_START: 4}
FUSES, FUSES_END = 0x820000, 0x830000
NOT_FLASH = 0x800000
HEAD = re.compile(rb"\s*:[0-9A-Fa-f]{10}")
LOST = ("HEX: this file has no names, no source lines and no sections: places are word addresses, and static data is what the start-up "
        "code clears and copies; "
        "the ELF file from which it was made says more")


class Record(NamedTuple):
    """The bytes of a record at their whole address, and its line."""

    line: int
    address: int
    data: bytes


def is_one(path: str) -> bool:
    """Whether a file is one of Intel HEX."""
    with open(path, "rb") as file:
        return bool(HEAD.match(file.read(64)))


def bytes_of(text: str) -> bytes:
    """The bytes of a record behind its `:`, whose sum is judged."""
    if text[:1] != ":":
        raise ValueError("a record begins with `:`")
    if len(text) % 2 == 0 or not re.fullmatch(r"[0-9A-Fa-f]*", text[1:]):
        raise ValueError("after `:` there are only pairs of hexadecimal digits")
    found = bytes.fromhex(text[1:])
    if len(found) < 5:
        raise ValueError("a record has five bytes at least: length, address, type and checksum")
    if len(found) != found[0] + 5:
        raise ValueError(f"the record says {found[0]} bytes of data and has {len(found) - 5}")
    if sum(found) % 256:
        raise ValueError(f"the checksum is {found[-1]:02X}, and that of these bytes {-sum(found[:-1]) % 256:02X}")
    return found


def kind_of(found: bytes) -> int:
    """The type of a record, whose length is judged by it."""
    kind = found[3]
    if kind != DATA and kind not in LENGTHS:
        raise ValueError(f"there is no record type {kind:02X}: 00 to 05 are all")
    if kind != DATA and found[0] != LENGTHS[kind]:
        raise ValueError(f"a record of type {kind:02X} has {LENGTHS[kind]} bytes of data, and this one has {found[0]}")
    if kind == DATA and int.from_bytes(found[1:3], "big") + found[0] > 0x10000:
        raise ValueError("the bytes go on beyond the end of their 65,536")
    return kind


def records(path: str, text: str) -> Iterator[Record]:
    """Yields the records with data; refuses the first line that is none, with its number."""
    base, is_ended, number = 0, False, 0
    for number, line in enumerate(text.splitlines(), start=1):
        line = line.strip()
        if not line:
            continue
        try:
            if is_ended:
                raise ValueError("a record after the end record")
            found = bytes_of(line)
            kind = kind_of(found)
        except ValueError as fault:
            raise NoElf(f"{path}: line {number}: {fault}") from None
        value = int.from_bytes(found[4:-1], "big")
        is_ended = kind == END
        if kind in (SEGMENT, LINEAR):
            base = value << (4 if kind == SEGMENT else 16)
        elif kind == DATA:
            yield Record(number, base + int.from_bytes(found[1:3], "big"), found[4:-1])
    if not is_ended:
        raise NoElf(f"{path}: line {number}: the end record `:00000001FF` is missing after it: the file is cut off")


class Image(Elf):
    """The flash of a file of Intel HEX, as an ELF file without names and sections. `data_end` is the data address behind what the start-up
    code fills."""

    def __init__(self, path: str) -> None:
        self.path = path
        self.data, self.loaded, self.headers, self.sections = b"", [], [], {}
        self.flash, self.flash_end, self.fuses = bytearray(b"\xff" * FLASH), 0, bytearray()
        self.filled: List[start_up.Filled] = []
        self.placed = []
        with open(path, encoding="ascii", errors="replace") as file:
            self.records = list(records(path, file.read()))
        self.put_all()
        self.read_symbols()
        self.take_for(of_class(DEFAULT))

    def put_all(self) -> None:
        """Places the bytes, of which no two may stand at one address."""
        placed: Dict[int, int] = {}
        for it in self.records:
            for at in range(it.address, it.address + len(it.data)):
                if at in placed:
                    raise NoElf(f"{self.path}: line {it.line}: address {at:04X} is defined by line {placed[at]} already")
                placed[at] = it.line
            if it.address + len(it.data) <= FLASH:
                self.flash[it.address:it.address + len(it.data)] = it.data
                self.flash_end = max(self.flash_end, it.address + len(it.data))
                self.placed.append((it.address, it.address + len(it.data)))
            elif FUSES <= it.address < FUSES_END:
                self.fuses += it.data
        if not self.flash_end:
            raise NoElf(f"{self.path}: no record has bytes of flash")

    def section(self, name: str) -> bytes:
        return bytes(self.fuses) if name == ".fuse" else b""

    def judge(self) -> None:
        """Refuses bytes behind the flash of the device as whose code it is read."""
        size = 2 * self.chip.words
        for it in self.records:
            end = it.address + len(it.data)
            if it.data and end > size and not NOT_FLASH < it.address:
                raise NoElf(f"{self.path}: line {it.line}: address {max(it.address, size):04X} lies beyond the flash of {self.chip.name}, "
                            f"whose last is {size - 1:04X}", "SB005")

    def static_end(self) -> Optional[int]:
        """The data address behind what the start-up code fills; None where it fills nothing."""
        return max((it.end for it in self.filled), default=None)

    def find_data(self) -> None:
        """Notes what the start-up code fills, with the initial bytes of what it copies."""
        self.filled = [it for it in (start_up.filled(self, word) for word in range(self.flash_end // 2)) if it]
        self.data = bytes(self.flash)
        self.loaded = [(CODE_END + it.begin, it.end - it.begin, it.source) for it in self.filled if it.source is not None]

    def raw(self) -> bytes:
        """The raw image: bytes from address 0 on, an even number of them."""
        return bytes(self.flash[:self.flash_end + self.flash_end % 2])


def firmware(path: str, device: Optional[str], folder: str) -> Firmware:
    """The firmware of a file of Intel HEX, whose raw image is made in a folder."""
    image = Image(path)
    found = Firmware(path, device, image)
    image.judge()
    image.find_data()
    found.lost = LOST
    found.image = os.path.join(folder, "image")
    with open(found.image, "wb") as file:
        file.write(image.raw())
    return found
