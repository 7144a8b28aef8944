"""Lines `scratch`: pushes whose bytes a program means to write later, as avr-libc's `exp` does with four of its own."""

from __future__ import annotations

from typing import Iterable, Iterator, List, Sequence, Tuple

from stackcheck_tools.firmware import opcodes
from stackcheck_tools.firmware.elf import Elf

KIND = "scratch"
# `push r0` three times, `in r20, SPL`, `in r21, SPH`, `push r0`: avr-libc's `exp` gives `modf` the address of these four bytes.
EXP = (0x920F, 0x920F, 0x920F, 0xB74D, 0xB75E, 0x920F)
PUSH, IN_SPL, FRAME_LOW = 0x920F, 0xB60D, 28
NEAR = 12  # instructions between a push and where the address of its byte is taken


def is_push(opcode: int) -> bool:
    return opcode & 0xFE0F == PUSH


def of_exp(elf: Elf) -> List[int]:
    """The words of the pushes of avr-libc's `exp`, wherever it is linked."""
    found = []
    for word in range((elf.flash_end + 1) // 2 - len(EXP) + 1):
        if elf.word(word) == EXP[0] and tuple(elf.word(word + it) for it in range(len(EXP))) == EXP:
            found += [word + it for it in (0, 1, 2, 5)]
    return found


def candidates_of(functions: Iterable[Sequence[Tuple[int, int]]]) -> Iterator[int]:
    """Yields the pushes of functions that take the stack pointer's address beside a frame: those near the read of SPL, the nearest
    first."""
    for words in functions:
        for at, (_, opcode) in enumerate(words):
            if opcode & 0xFE0F == IN_SPL and opcodes.destination(opcode) != FRAME_LOW:
                near = [(abs(n - at), words[n][0]) for n in range(max(at - NEAR, 0), min(at + NEAR + 1, len(words)))
                        if is_push(words[n][1])]
                yield from (word for _, word in sorted(near))
