"""What an instruction does to registers and memory: which it reads and writes, as a copy, a constant, a sum, a load, a store, or something
else. What flags and the program counter become isn't told."""

from __future__ import annotations

import functools
from typing import NamedTuple, Optional, Tuple, Union

from stackcheck_tools.firmware import opcodes
from stackcheck_tools.firmware.elf import Elf

X, Y, Z = 26, 28, 30
ZERO = 1  # the register that compiled code keeps at 0
PRODUCT = (0, 1)  # the registers that `mul` and its kin write


class Copy(NamedTuple):
    """`mov`, and `movw`, which copies two registers."""

    to: int
    of: int
    size: int


class Constant(NamedTuple):
    """`ldi`, and `eor` of a register with itself; `is_named`: whether a record of the linker may stand at it."""

    to: int
    byte: int
    is_named: bool


class Sum(NamedTuple):
    """`to` plus or less a register, or a byte where `of` is None. `carries`: with the carry that the lower half left."""

    to: int
    of: Optional[int]
    byte: int
    is_less: bool
    carries: bool


class Step(NamedTuple):
    """`adiw` and `sbiw`: what is added to a pair."""

    pair: int
    by: int


class Logic(NamedTuple):
    """`and`, `or`, `eor` of `to` with a register, or with a byte where `of` is None."""

    to: int
    of: Optional[int]
    byte: int
    operation: str


class Negation(NamedTuple):
    """`com` and `neg`."""

    to: int
    is_complement: bool


class Mixed(NamedTuple):
    """What moves bits: shifts, `swap`, `bld`, products. `shifts`: how far `lsr` and `ror` do, 0 of the others."""

    to: Tuple[int, ...]
    of: Tuple[int, ...]
    shifts: int
    carries: bool


class Load(NamedTuple):
    """`ld` and `ldd`: at a pair plus `more`, which is moved by `step` afterwards."""

    to: int
    pair: int
    more: int
    step: int


class LoadAt(NamedTuple):
    """`lds`."""

    to: int
    address: int


class LoadFlash(NamedTuple):
    """`lpm` and `elpm`, of which Z is moved by `step` afterwards."""

    to: int
    step: int


class Store(NamedTuple):
    """`st` and `std`."""

    of: int
    pair: int
    more: int
    step: int


class StoreAt(NamedTuple):
    """`sts`."""

    of: int
    address: int


class Input(NamedTuple):
    """`in`."""

    to: int
    address: int


class Output(NamedTuple):
    """`out`."""

    of: int
    address: int


class Push(NamedTuple):
    of: int


class Pop(NamedTuple):
    to: int


class Nothing(NamedTuple):
    """What writes no register and no byte of SRAM: tests, branches, jumps, calls."""


Effect = Union[Copy, Constant, Sum, Step, Logic, Negation, Mixed, Load, LoadAt, LoadFlash, Store, StoreAt, Input, Output, Push, Pop,
               Nothing]

NOTHING = Nothing()
OPERATIONS = {0x2000: "and", 0x2400: "xor", 0x2800: "or", 0x6000: "or", 0x7000: "and"}
SUMS = {0x0C00: (False, False), 0x1C00: (False, True), 0x1800: (True, False), 0x0800: (True, True)}  # `add` .. `sbc`: less, carries
DISPLACED = {0x0: Z, 0x8: Y, 0xC: X}


def moves(opcode: int) -> Tuple[int, int, int]:
    """The pair of an access through a pointer, its displacement, and by how much the pair is moved."""
    if opcode & 0xD000 == 0x8000:
        return (Y if opcode & 8 else Z), opcode & 7 | opcode >> 7 & 0x18 | opcode >> 8 & 0x20, 0
    step = {1: 1, 2: -1}.get(opcode & 3, 0)
    return DISPLACED[opcode & 12], min(step, 0), step


def is_access(opcode: int) -> bool:
    """Whether an opcode is of `ld`, `ldd`, `st` or `std`."""
    return opcode & 0xD000 == 0x8000 or opcode & 0xFC00 == 0x9000 and opcode & 15 in (0x1, 0x2, 0x9, 0xA, 0xC, 0xD, 0xE)


def of_memory(opcode: int, following: int) -> Optional[Effect]:
    """The effect of what reads or writes memory; None of another instruction."""
    register = opcode >> 4 & 31
    if is_access(opcode):
        pair, more, step = moves(opcode)
        return Store(register, pair, more, step) if opcode & 0x0200 else Load(register, pair, more, step)
    if opcode & 0xFC0F == 0x9000:
        return StoreAt(register, following) if opcode & 0x0200 else LoadAt(register, following)
    if opcode & 0xFC0F == 0x900F:
        return Push(register) if opcode & 0x0200 else Pop(register)
    if opcodes.is_lpm(opcode):
        is_named = opcode & 0xFE0C == 0x9004
        return LoadFlash(register if is_named else 0, int(is_named and opcode & 1))
    if opcode & 0xF000 == 0xB000:
        address = opcodes.io_address(opcode)
        return Output(register, address) if opcode & 0x0800 else Input(register, address)
    return None


def of_two(opcode: int) -> Optional[Effect]:
    """The effect of what computes with two registers; None of another instruction."""
    to, of, top = opcode >> 4 & 31, opcode & 15 | opcode >> 5 & 16, opcode & 0xFC00
    if top == 0x2C00:
        return Copy(to, of, 1)
    if opcode & 0xFF00 == 0x0100:
        return Copy(2 * (opcode >> 4 & 15), 2 * (opcode & 15), 2)
    if top in SUMS:
        return Sum(to, of, 0, *SUMS[top])
    if opcodes.is_clr(opcode):
        return Constant(to, 0, False)
    if top in (0x2000, 0x2400, 0x2800):
        return NOTHING if to == of else Logic(to, of, 0, OPERATIONS[top])
    if opcodes.group(opcode) == "mul":
        return Mixed(PRODUCT, PRODUCT, 0, False)
    return None


def of_byte(opcode: int) -> Optional[Effect]:
    """The effect of what computes with a byte of its own; None of another instruction."""
    to, byte, top = 16 + (opcode >> 4 & 15), opcode & 15 | opcode >> 4 & 0xF0, opcode & 0xF000
    if top == 0xE000:
        return Constant(to, byte, True)
    if top in (0x4000, 0x5000):
        return Sum(to, None, byte, True, top == 0x4000)
    if top in (0x6000, 0x7000):
        return Logic(to, None, byte, OPERATIONS[top])
    if opcode & 0xFE00 == 0x9600:
        step = opcode & 15 | opcode >> 2 & 0x30
        return Step(24 + 2 * (opcode >> 4 & 3), -step if opcode & 0x0100 else step)
    return None


def of_one(opcode: int) -> Effect:
    """The effect of what computes with one register, and of all else."""
    to, low = opcode >> 4 & 31, opcode & 15
    if opcode & 0xFE00 == 0x9400:
        if low in (0, 1):
            return Negation(to, low == 0)
        if low in (3, 10):
            return Sum(to, None, 1, low == 10, False)
        if low in (2, 5, 6, 7):  # swap, asr, lsr, ror
            return Mixed((to,), (to,), int(low in (6, 7)), low == 7)
    if opcode & 0xFE08 == 0xF800:  # bld
        return Mixed((to,), (to,), 0, True)
    if opcode == 0x95F8:  # spm Z+
        return Step(Z, 2)
    return NOTHING


@functools.lru_cache(maxsize=None)
def of(opcode: int, following: int) -> Effect:
    """The effect of an instruction, by its opcode and the word behind it."""
    for decode in (of_two, of_byte):
        if (found := decode(opcode)) is not None:
            return found
    return of_memory(opcode, following) or of_one(opcode)


def at(elf: Elf, word: int) -> Effect:
    """The effect of the instruction at a word."""
    opcode = elf.word(word)
    return of(opcode, elf.word(word + 1) if opcodes.length(opcode) == 2 else 0)


def written(effect: Effect) -> Tuple[int, ...]:
    """The registers that an effect writes."""
    if isinstance(effect, (Load, Store)):
        moved = (effect.pair, effect.pair + 1) if effect.step else ()
        return (effect.to, *moved) if isinstance(effect, Load) else moved
    if isinstance(effect, LoadFlash):
        return (effect.to, Z, Z + 1) if effect.step else (effect.to,)
    if isinstance(effect, Copy):
        return tuple(range(effect.to, effect.to + effect.size))
    if isinstance(effect, Step):
        return effect.pair, effect.pair + 1
    if isinstance(effect, Mixed):
        return effect.to
    if isinstance(effect, (Constant, Sum, Logic, Negation, LoadAt, Input, Pop)):
        return (effect.to,)
    return ()


def read(effect: Effect) -> Tuple[int, ...]:
    """The registers that an effect reads, pointers among them; what tests and comparisons read isn't told."""
    if isinstance(effect, Copy):
        return tuple(range(effect.of, effect.of + effect.size))
    if isinstance(effect, (Sum, Logic)):
        return (effect.to,) if effect.of is None else (effect.to, effect.of)
    if isinstance(effect, Step):
        return effect.pair, effect.pair + 1
    if isinstance(effect, Negation):
        return (effect.to,)
    if isinstance(effect, Mixed):
        return effect.of
    if isinstance(effect, Load):
        return effect.pair, effect.pair + 1
    if isinstance(effect, LoadFlash):
        return Z, Z + 1
    if isinstance(effect, Store):
        return effect.of, effect.pair, effect.pair + 1
    if isinstance(effect, (StoreAt, Output, Push)):
        return (effect.of,)
    return ()
