"""The loops of start-up code that fill static data, by their instructions."""

from __future__ import annotations

from typing import NamedTuple, Optional

from stackcheck_tools.firmware.elf import Elf

XL, XH, ZL, ZH = 26, 27, 30, 31
ST_X_R1, ST_X_R0 = 0x921D, 0x920D
BACK = 8  # instructions before a loop in which its registers are loaded


class Filled(NamedTuple):
    """The data addresses `begin` to `end` - 1 that a loop clears or, where it `copies`, fills from `source` in flash (None: not known)."""

    begin: int
    end: int
    copies: bool
    source: Optional[int]

    def __str__(self) -> str:
        return f"{self.begin:04X} to {self.end - 1:04X}"


def loaded(elf: Elf, word: int, register: int) -> Optional[int]:
    """The byte that the last `ldi` of a register among the few instructions before a word loads; None where there is none."""
    for at in range(word - 1, max(word - BACK - 1, -1), -1):
        opcode = elf.word(at)
        if opcode & 0xF000 == 0xE000 and 16 + (opcode >> 4 & 15) == register:
            return opcode & 15 | opcode >> 4 & 0xF0
    return None


def pair(elf: Elf, word: int, low: int) -> Optional[int]:
    """The number that `ldi` loads into a pair of registers before a word."""
    bytes_of = [loaded(elf, word, it) for it in (low, low + 1)]
    return None if None in bytes_of else bytes_of[1] << 8 | bytes_of[0]  # type: ignore[operator]


def filled(elf: Elf, word: int) -> Optional[Filled]:
    """What the loop fills whose store stands at a word; None where it isn't the store of such a loop."""
    store, compare, other = (elf.word(word + it) for it in range(3))
    if store not in (ST_X_R0, ST_X_R1) or compare & 0xF0F0 != 0x30A0 or other & 0xFDF0 != 0x05B0:
        return None
    begin, high = pair(elf, word, XL), loaded(elf, word, other & 15 | other >> 5 & 16)
    if begin is None or high is None:
        return None
    copies = store == ST_X_R0
    return Filled(begin, high << 8 | compare & 15 | compare >> 4 & 0xF0, copies, pair(elf, word, ZL) if copies else None)
