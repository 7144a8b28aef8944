"""Firmwares under libsimavr: builds the machine of this folder, tells it what the bytes of a firmware are, and reads what its runs did."""

from __future__ import annotations

import os
import shutil
import struct
import subprocess
import sys
from typing import Dict, Iterator, List, NamedTuple, Optional, Set, Tuple

HERE = os.path.dirname(os.path.realpath(__file__))
TOP = os.path.dirname(os.path.dirname(HERE))
sys.path.insert(0, os.path.join(TOP, "tools"))

from stackcheck_tools.firmware.devices import Device  # noqa: E402
from stackcheck_tools.firmware.elf import ALLOCATED, CODE_END, EXECUTED, Elf as Elf  # noqa: E402

SOURCES = ("machine.c", "origins.c")
HEADER = "/usr/include/simavr/sim_avr.h"
UNKNOWN_DEVICE = 2  # the machine's status
RECORDS, ABSOLUTE, UNDEFINED = 4, 0xFFF1, 0
BYTES, NEGATIVE_BYTES, WORDS, NEGATIVE_WORDS = (6, 7, 19), (9, 10), (12, 13, 24, 25), (15, 16)  # types of records of immediates
WHOLE, WHOLE_WORDS = (1, 4, 26, 27, 28), 5  # and of bytes that stand for themselves
NEAR = 6  # words within which two instructions make one address
ALWAYS_TRIED = (0x00, 0x01, 0x02, 0x7E, 0xFF, 0x5D, 0x5E, 0x5F, 0x3D, 0x3E, 0x3F)  # with the addresses of the core, which a trap waits for


class Missing(Exception):
    """What the machine needs isn't installed, or it lacks this device."""


def build(folder: str) -> str:
    """Builds the machine in a folder, and returns its path."""
    if not shutil.which("cc") or not os.path.exists(HEADER):
        raise Missing("no C compiler or no libsimavr-dev")
    path = os.path.join(folder, "machine")
    subprocess.run(["cc", "-O2", "-Wall", "-Wextra", "-o", path, *(os.path.join(HERE, it) for it in SOURCES), "-lsimavr"], check=True)
    return path


class Stores(NamedTuple):
    """Stores of one word through pointers of one source: how many, and the least and the greatest address."""

    number: int
    least: int
    most: int


class Seen:
    """What runs did: the deepest stack, and by word and source of the pointer the stores, the core's registers that they wrote, and the
    targets of calls and jumps; where kept pointers were loaded from, by the words that used them; and where halves of addresses stood."""

    def __init__(self) -> None:
        self.depth, self.steps = 0, 0
        self.stops: Set[str] = set()
        self.stores: Dict[Tuple[int, str], Stores] = {}
        self.core: Dict[Tuple[int, str], Set[int]] = {}
        self.targets: Dict[Tuple[int, str], Set[int]] = {}
        self.homes: Dict[int, Set[int]] = {}
        self.stood: Set[int] = set()

    def read(self, text: str) -> None:
        """Joins what one run printed."""
        for line in text.splitlines():
            what, *words = line.split() or [""]
            if what not in ("run", "stood", "home", "store", "core", "call"):  # simavr prints some things itself
                continue
            if what == "run":
                self.depth, self.steps = max(self.depth, int(words[1])), self.steps + int(words[3])
                self.stops.add(" ".join(words[5:]))
                continue
            if what == "stood":
                self.stood.add(int(words[0], 16))
                continue
            if what == "home":
                self.homes.setdefault(int(words[0], 16), set()).add(int(words[1], 16))
                continue
            key = int(words[0], 16), words[1]
            if what == "store":
                before = self.stores.get(key, Stores(0, 0xFFFF, 0))
                least, most = min(before.least, int(words[3], 16)), max(before.most, int(words[4], 16))
                self.stores[key] = Stores(before.number + int(words[2]), least, most)
            else:
                (self.core if what == "core" else self.targets).setdefault(key, set()).add(int(words[2], 16))


class Record(NamedTuple):
    """One of the linker's records: where it stands, its type, and whether what it names is an object, code, or only a number."""

    place: int
    type: int
    kind: Optional[str]


def records(elf: Elf) -> Iterator[Record]:
    """Yields the linker's records of what the machine holds."""
    for header in elf.headers:
        if header[1] != RECORDS or not elf.headers[header[7]][2] & ALLOCATED:
            continue
        symbols = elf.headers[header[6]][4]
        for at in range(header[4], header[4] + header[5], 12):
            place, info, addend = struct.unpack_from("<IIi", elf.data, at)
            _, value, _, _, _, section = struct.unpack_from("<IIIBBH", elf.data, symbols + 16 * (info >> 8))
            kind = "object" if value + addend >= CODE_END else "code" if section not in (ABSOLUTE, UNDEFINED) else None
            yield Record(place, info & 0xFF, kind)


def segments(elf: Elf) -> Iterator[Tuple[int, int, int]]:
    """Yields the address, the place in flash and the size of each part of the image."""
    offset, = struct.unpack_from("<I", elf.data, 28)
    size, count = struct.unpack_from("<HH", elf.data, 42)
    for number in range(count):
        kind, _, address, place, length = struct.unpack_from("<IIIII", elf.data, offset + number * size)
        if kind == 1 and length and place < CODE_END:
            yield address, place, length


def marks_of_records(elf: Elf) -> Iterator[str]:
    """Yields the machine's marks by the linker's records."""
    parts = list(segments(elf))
    for it in records(elf):
        if not it.kind:
            continue
        if it.type in BYTES + NEGATIVE_BYTES + WORDS + NEGATIVE_WORDS:
            yield f"i {it.place // 2:X} {it.kind} {'-' if it.type in NEGATIVE_BYTES + NEGATIVE_WORDS else '+'}"
        elif it.type in WHOLE or it.type == WHOLE_WORDS:
            for address, place, length in parts:
                if address <= it.place < address + length:
                    yield from (f"f {place + it.place - address + byte:X} {it.kind} +" for byte in (0, 1))


def kind_of_number(elf: Elf, number: int, begins: Set[int]) -> Optional[str]:
    """What a number of 16 bits is the address of, in a file without records."""
    end = elf.static_end() or 0
    return "object" if elf.chip.first <= number <= end else "code" if number in begins else None


def marks_of_numbers(elf: Elf) -> Iterator[str]:
    """Yields the machine's marks of a file without records, by the numbers that instructions and first values make."""
    begins = {it.address // 2 for it in elf.code if it.is_function and it.address}
    for section in elf.headers:
        if not section[2] & EXECUTED:
            continue
        recent: List[Tuple[int, int, int]] = []  # word, opcode and register of the low halves
        for word in range(section[3] // 2, (section[3] + section[5]) // 2):
            opcode = elf.word(word)
            kind, register, byte = opcode & 0xF000, 16 + (opcode >> 4 & 15), opcode & 15 | opcode >> 4 & 0xF0
            recent = [it for it in recent if word - it[0] <= NEAR]
            if kind in (0xE000, 0x5000):
                recent.append((word, opcode, register))
            if kind not in (0xE000, 0x4000):
                continue
            for low, other, at in recent:
                half = other & 15 | other >> 4 & 0xF0
                if at == register ^ 1 and other & 0xF000 == (0xE000 if kind == 0xE000 else 0x5000):
                    number = (byte << 8 | half) if register % 2 else (half << 8 | byte)
                    found = kind_of_number(elf, number if kind == 0xE000 else -number % 0x10000, begins)
                    if found:
                        yield from (f"i {it:X} {found} {'+' if kind == 0xE000 else '-'}" for it in (low, word))
    for address, place, length in segments(elf):
        for byte in range(length - 1 if address >= CODE_END else 0):
            number = elf.flash[place + byte] | elf.flash[place + byte + 1] << 8
            found = kind_of_number(elf, number, begins)
            if found:
                yield from (f"f {place + byte + half:X} {found} +" for half in (0, 1))


def has_records(elf: Elf) -> bool:
    return any(it.type in BYTES + WORDS for it in records(elf))


def masks(places: Dict[int, int]) -> str:
    return ",".join(f"{address:X}.{mask:X}" for address, mask in sorted(places.items())) or "-"


def core_of(device: Device) -> Dict[int, int]:
    """The registers of the core of a device with the bits that count: all, and of the one that moves the vectors its bit."""
    found = {address: 0xFF for name, address in device.core.items() if name in ("SPL", "SPH", "SREG", "RAMPZ", "EIND")}
    return {**found, device.moving.address: found.get(device.moving.address, 0) | device.moving.mask} if device.moving else found


def held_of(device: Device) -> Dict[int, int]:
    """The bits of inputs and outputs that keep what was written."""
    found = {**core_of(device), 0x5F: 0xFF}
    for place in (it for vector in device.rows.values() for it in vector.places):
        found[place.address] = found.get(place.address, 0) | place.mask
    return found


def tried(elf: Elf) -> str:
    """The bytes with which a firmware compares."""
    found = set(ALWAYS_TRIED)
    for word in range(elf.flash_end // 2):
        opcode = elf.word(word)
        if opcode & 0xF000 in (0x3000, 0x5000):
            found.add(opcode & 15 | opcode >> 4 & 0xF0)
    return ",".join(f"{it:X}" for it in sorted(found))


class Simulation:
    """Runs of one firmware on the machine at a path, with files in a folder."""

    def __init__(self, machine: str, elf: Elf, folder: str) -> None:
        self.elf, self.machine = elf, machine
        self.image, self.marks = os.path.join(folder, "image"), os.path.join(folder, "marks")
        with open(self.image, "wb") as file:
            file.write(bytes(elf.flash[:elf.flash_end + elf.flash_end % 2]))
        with open(self.marks, "w", encoding="ascii") as text:
            text.writelines(it + "\n" for it in (marks_of_records if has_records(elf) else marks_of_numbers)(elf))

    def run(self, seeds: int, steps: int, phrases: str = "-") -> Seen:
        """What some runs of so many steps did, in which inputs give the phrases of a file too."""
        device, seen = self.elf.chip, Seen()
        name = self.elf.device() or device.name
        for seed in range(seeds):
            words = [self.machine, name, self.image, self.marks, str(seed), str(steps), masks(core_of(device)), masks(held_of(device)),
                     tried(self.elf), phrases]
            said = subprocess.run(words, stdin=subprocess.DEVNULL, stdout=subprocess.PIPE, check=False)
            if said.returncode == UNKNOWN_DEVICE:
                raise Missing(f"simavr has no {name}")
            said.check_returncode()
            seen.read(said.stdout.decode("ascii"))
        return seen
