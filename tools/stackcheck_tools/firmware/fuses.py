"""Fuses that an ELF file says are programmed (section `.fuse`) and of which no flag speaks: they change where the chip starts, or what chip
it is."""

from __future__ import annotations

from typing import Iterator, NamedTuple, Tuple

from stackcheck_tools.firmware.elf import Elf

FUSES = "fuses"  # a kind of places
KEPT = "@fuses"  # by which a line `keeps` of a spec names them
CONDITION = "the chip's fuses are not programmed as the file's .fuse section says"
BOOTS = "the chip starts in the boot section, and the bound takes it to start at 0"
OLDER = "the chip works as an older one, {}, and the bound takes it to be an {}"
LOW, HIGH, EXTENDED = range(3)  # bytes of the section

# From avr-libc's headers; the names of one class agree.
IN_EXTENDED = ("at90pwm1", "at90pwm2", "at90pwm216", "atmega88pa", "atmega88pb", "atmega168pa", "atmega168pb", "attiny828")
IN_LOW = ("atmega161",)
WITHOUT = ("atmega48pa", "atmega48pb")  # with all of attiny but one
COMPATIBLE = {"atmega64": ("M103C", 1, "ATmega103"), "atmega128": ("M103C", 1, "ATmega103"), "atmega162": ("M161C", 4, "ATmega161")}


class Fuse(NamedTuple):
    """A fuse by its name, the byte of the section and the bit that is 0 where it is programmed, and what it does then."""

    name: str
    byte: int
    bit: int
    text: str


def boot_reset(device: str) -> Tuple[int, int]:
    """The byte and the bit of BOOTRST on a class of devices that has it."""
    return (EXTENDED, 0) if device in IN_EXTENDED else (LOW, 6) if device in IN_LOW else (HIGH, 0)


def of_device(device: str) -> Iterator[Fuse]:
    """Yields the fuses of a class of devices that the bound takes to be unprogrammed."""
    if device in IN_EXTENDED or device not in WITHOUT and not device.startswith("attiny"):
        yield Fuse("BOOTRST", *boot_reset(device), BOOTS)
    if device in COMPATIBLE:
        name, bit, older = COMPATIBLE[device]
        yield Fuse(name, EXTENDED, bit, OLDER.format(older, device.replace("atmega", "ATmega")))


def programmed(elf: Elf, device: str) -> Iterator[Fuse]:
    """Yields those of these fuses that the file's own section programs."""
    section = elf.section(".fuse")
    yield from (it for it in of_device(device) if it.byte < len(section) and not section[it.byte] >> it.bit & 1)
