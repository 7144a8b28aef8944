"""The instructions of a firmware as a dataflow meets them: what each does, and where a run goes on."""

from __future__ import annotations

import functools
from typing import NamedTuple, Optional, Tuple

from stackcheck_tools.dataflow import loaded
from stackcheck_tools.firmware import effects, opcodes
from stackcheck_tools.firmware import functions as firmware_functions
from stackcheck_tools.firmware.effects import Effect
from stackcheck_tools.firmware.elf import Elf, Symbol

RETURN, JUMP_THROUGH, JUMP, ROOM, CALL, CALL_THROUGH, OTHER = range(7)


class Instruction(NamedTuple):
    """What stands at a word: its kind, the word behind it, the word that it names (of calls and jumps), its effect, the words that may
    follow, and the function in which it stands. `tested`: the register that the instruction before has tested for 0, of `breq` and `brne`,
    and `zero` the number of the way on which it is."""

    kind: int
    opcode: int
    after: int
    to: int
    effect: Effect
    ways: Tuple[int, ...]
    function: Optional[Symbol]
    tested: Optional[int]
    zero: int


def tested_before(elf: Elf, word: int, opcode: int) -> Optional[int]:
    """The register that `and` with itself tests right before a `breq` or `brne`."""
    before = elf.word(word - 1)
    is_test = before & 0xFC00 == 0x2000 and opcodes.destination(before) == (before & 15 | before >> 5 & 16)
    return opcodes.destination(before) if opcode & 0xFC07 in (0xF001, 0xF401) and is_test else None


def kind_of(elf: Elf, word: int, opcode: int, after: int) -> Tuple[int, int]:
    """The kind of an instruction, and the word that it names."""
    if opcode in loaded.RETURNS:
        return RETURN, 0
    if opcodes.is_jump(opcode):
        return JUMP_THROUGH, 0
    if (to := opcodes.jump_target(elf, word)) is not None:
        return JUMP, to
    if (called := opcodes.call_target(elf, word)) is not None:
        return (ROOM if called == after else CALL), called  # a call of the next word makes room on the stack
    return (CALL_THROUGH if opcodes.is_call(opcode) else OTHER), 0


@functools.lru_cache(maxsize=None)
def at(elf: Elf, word: int) -> Instruction:
    opcode = elf.word(word)
    after = word + opcodes.length(opcode)
    kind, to = kind_of(elf, word, opcode, after)
    ways = tuple(opcodes.following(elf, word)) if kind == OTHER else ()
    return Instruction(kind, opcode, after, to, effects.at(elf, word), ways, firmware_functions.at(elf, 2 * word),
                       tested_before(elf, word, opcode), 1 if opcode & 0x0400 == 0 else 0)
