"""Which instructions write a register, and where it was written last."""

from __future__ import annotations

from typing import Optional

from stackcheck_tools.firmware import candidates, effects, opcodes
from stackcheck_tools.firmware.effects import Effect
from stackcheck_tools.firmware.elf import Elf, Symbol

FAR = 24  # instructions before a word in which a write is looked for
ZERO = 1  # the register that compiled code takes to be 0


def last_write(elf: Elf, word: int, register: int) -> Optional[Effect]:
    """The last instruction of the same function before a word that writes a register; None where none is near."""
    found = (effects.at(elf, at) for at, _ in candidates.before(elf, word, FAR))
    return next((it for it in found if register in effects.written(it)), None)


def is_from_memory(elf: Elf, word: int) -> bool:
    """Whether the byte that an `out` or `sts` at a word writes was loaded from memory."""
    write = effects.at(elf, word)
    if not isinstance(write, (effects.Output, effects.StoreAt)):
        return False
    return isinstance(last_write(elf, word, write.of), (effects.Load, effects.LoadAt))


def keeps_zero(elf: Elf, symbol: Symbol) -> bool:
    """Whether a function that computes with r1 clears it behind that, or gives back what it was."""
    found = [it for at, _ in opcodes.words_of(elf, symbol) if ZERO in effects.written(it := effects.at(elf, at))]
    return not found or isinstance(found[-1], (effects.Constant, effects.Pop))
