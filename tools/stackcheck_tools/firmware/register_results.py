"""avr-libc's functions that have their result stored through a pointer into the registers in which they return, as `eeprom_read_word` does."""

from __future__ import annotations

from typing import Dict, Optional, Set

from stackcheck_tools.firmware import candidates, effects, opcodes
from stackcheck_tools.firmware.effects import X, Constant
from stackcheck_tools.firmware.elf import Elf

COUNT = 20  # the register with the number of bytes
REGISTERS = 32
FAR = 16  # words behind the jump in which the store is looked for
LOADED = (X, X + 1, COUNT, COUNT + 1)  # what is loaded right before the jump, in this order


def jumped_to(elf: Elf, word: int) -> Optional[int]:
    """The word to which four loads of the address and the number of registers lead; None where a word isn't the first of them."""
    found = [effects.at(elf, word + it) for it in range(len(LOADED))]
    if not all(isinstance(it, Constant) and it.is_named and it.to == to for it, to in zip(found, LOADED)):
        return None
    low, high, count, more = (it.byte for it in found if isinstance(it, Constant))
    is_result = high == more == 0 and count and low + count <= REGISTERS
    return opcodes.jump_target(elf, word + len(LOADED)) if is_result else None


def store_from(elf: Elf, word: int) -> Optional[int]:
    """The first `st X+` from a word on."""
    return next((at for at in range(word, word + FAR) if isinstance(it := effects.at(elf, at), effects.Store) and (it.pair, it.step) == (X, 1)),
                None)


def stores(elf: Elf) -> Dict[int, Set[int]]:
    """The stores into registers by their addresses, each with the registers."""
    found: Dict[int, Set[int]] = {}
    for words in candidates.code(elf):
        for word, opcode in words:
            to = jumped_to(elf, word) if opcodes.is_ldi(opcode) else None
            site = None if to is None else store_from(elf, to)
            if site is not None:
                first, count = opcodes.ldi(opcode)[1], opcodes.ldi(elf.word(word + 2))[1]
                found.setdefault(site, set()).update(range(first, first + count))
    return found
