"""Sites in a function's code: its indirect transfers, its stores through pointers and what moves its frame, found by their opcodes."""

from __future__ import annotations

from typing import Callable, Iterator, List, Optional, Tuple

from stackcheck_tools.firmware.elf import Elf, Symbol

IJMP, ICALL, EIJMP, EICALL = 0x9409, 0x9509, 0x9419, 0x9519
SPM, SEI = 0x95E8, 0x9478
DEC_R29, INC_R29, SUBI_R29 = 0x95DA, 0x95D3, 0x50D0
OUT_SPH_R29, OUT_SPL_R28 = 0xBFDE, 0xBFCD
FRAME_LOW, FRAME_HIGH = 28, 29  # the frame pointer


def length(opcode: int) -> int:
    """How many words an instruction has: `lds`, `sts`, `jmp` and `call` have two."""
    return 2 if opcode & 0xFC0F == 0x9000 or opcode & 0xFE0C == 0x940C else 1


def is_jump(opcode: int) -> bool:
    """`ijmp` or `eijmp`."""
    return opcode in (IJMP, EIJMP)


def is_call(opcode: int) -> bool:
    """`icall` or `eicall`."""
    return opcode in (ICALL, EICALL)


def is_indirect(opcode: int) -> bool:
    return is_jump(opcode) or is_call(opcode)


def is_pointer_store(opcode: int) -> bool:
    """`st` through X, Y or Z with or without a step, and `std`."""
    if opcode & 0xD200 == 0x8200:
        return True
    return opcode & 0xFE00 == 0x9200 and opcode & 15 in (0x1, 0x2, 0x9, 0xA, 0xC, 0xD, 0xE)


def destination(opcode: int) -> int:
    """The register that an `add`, `adc` or another instruction of this form writes."""
    return (opcode >> 4) & 31


def is_add(opcode: int) -> bool:
    return opcode & 0xFC00 == 0x0C00


def is_adc(opcode: int) -> bool:
    return opcode & 0xFC00 == 0x1C00


def is_clr(opcode: int) -> bool:
    """`eor` of a register with itself."""
    return opcode & 0xFC00 == 0x2400 and destination(opcode) == opcode & 15 | opcode >> 5 & 16


def is_frame_site(opcode: int) -> bool:
    """`add`, `adc`, `sub`, `subi`, `inc` or `dec`, for which a `frame` line may say something."""
    return is_add(opcode) or is_adc(opcode) or opcode & 0xFC00 == 0x1800 or opcode & 0xF000 == 0x5000 or opcode & 0xFE0F in (0x9403, 0x940A)


def moves_high_byte(opcode: int) -> bool:
    """`dec`, `inc` or `subi` of the frame pointer's high byte."""
    return opcode in (DEC_R29, INC_R29) or opcode & 0xF0F0 == SUBI_R29


def is_ldi(opcode: int) -> bool:
    return opcode & 0xF000 == 0xE000


def ldi(opcode: int) -> Tuple[int, int]:
    """The register and the byte of an `ldi`."""
    return 16 + (opcode >> 4 & 15), opcode & 15 | opcode >> 4 & 0xF0


def ends(opcode: int) -> bool:
    """`ret`, `reti`, `ijmp`, `eijmp`, `jmp` or `rjmp`: what the next word follows only by a jump or a call."""
    return opcode in (0x9508, 0x9518) or is_jump(opcode) or opcode & 0xFE0E == 0x940C or opcode & 0xF000 == 0xC000


def words_of(elf: Elf, symbol: Symbol) -> Iterator[Tuple[int, int]]:
    """Yields (word address, opcode) of each instruction of a symbol's extent, read one behind the other."""
    begin, end = elf.extent(symbol)
    word = begin // 2
    while 2 * word < end:
        opcode = elf.word(word)
        yield word, opcode
        word += length(opcode)


def sites(elf: Elf, symbol: Symbol, test: Callable[[int], bool]) -> List[int]:
    return [word for word, opcode in words_of(elf, symbol) if test(opcode)]


def target(elf: Elf, word: int, far: int, near: int) -> Optional[int]:
    opcode = elf.word(word)
    if opcode & 0xFE0E == far:
        return ((opcode >> 3 & 0x3E | opcode & 1) << 16 | elf.word(word + 1)) % elf.chip.words
    if opcode & 0xF000 == near:
        step = opcode & 0xFFF
        return (word + 1 + step - (0x1000 if step & 0x800 else 0)) % elf.chip.words
    return None


def jump_target(elf: Elf, word: int) -> Optional[int]:
    """The word to which the `jmp` or `rjmp` at a word leads; None where another instruction stands there."""
    return target(elf, word, 0x940C, 0xC000)


def call_target(elf: Elf, word: int) -> Optional[int]:
    """The word that the `call` or `rcall` at a word enters; None where another instruction stands there."""
    return target(elf, word, 0x940E, 0xD000)


def io_address(opcode: int) -> int:
    """The data address that an `in` or `out` names."""
    return (opcode & 15 | opcode >> 5 & 0x30) + 0x20


def uses_stack(opcode: int) -> bool:
    """`push`, a call, `ret`, `reti`, or `sei`, behind which an interrupt may push."""
    pushes = opcode & 0xFE0F == 0x920F or opcode & 0xFE0E == 0x940E or opcode & 0xF000 == 0xD000
    return pushes or is_call(opcode) or opcode in (0x9508, 0x9518, SEI)


def is_skip(opcode: int) -> bool:
    """`cpse`, `sbrc`, `sbrs`, `sbic` or `sbis`."""
    return opcode & 0xFC00 == 0x1000 or opcode & 0xFC08 == 0xFC00 or opcode & 0xFD00 == 0x9900


def following(elf: Elf, word: int) -> List[int]:
    """The words at which a run may go on behind an instruction that is no call and no return; none behind `ijmp` and
    `eijmp`."""
    opcode = elf.word(word)
    after = word + length(opcode)
    if is_jump(opcode):
        return []
    if (to := jump_target(elf, word)) is not None:
        return [to]
    if opcode & 0xF800 == 0xF000:
        step = opcode >> 3 & 0x7F
        return [after, after + step - (0x80 if step & 0x40 else 0)]
    return [after, after + length(elf.word(after))] if is_skip(opcode) else [after]


def immediate(opcode: int) -> int:
    """The byte that an instruction with an eight-bit constant has."""
    return opcode & 15 | opcode >> 4 & 0xF0


def pair_loaded(elf: Elf, word: int) -> Optional[int]:
    """The number that `subi r30`, `sbci r31` at a word add to the pair r31:r30; None where these aren't there."""
    low, high = elf.word(word), elf.word(word + 1)
    if low & 0xF0F0 == 0x50E0 and high & 0xF0F0 == 0x40F0:
        return -(immediate(low) | immediate(high) << 8) % 0x10000
    return None


def table_before(elf: Elf, word: int) -> Optional[int]:
    """The word address of the table that is added to Z right before a word; the byte above it may be moved in between."""
    found = pair_loaded(elf, word - 2)
    is_third = elf.word(word - 1) & 0xF000 == 0x4000  # `sbci` of the third byte, where addresses have one
    return pair_loaded(elf, word - 3) if found is None and is_third else found


def is_elpm(opcode: int) -> bool:
    return opcode == 0x95D8 or opcode & 0xFE0E == 0x9006


def group(opcode: int) -> Optional[str]:
    """The group of an instruction that not all devices have; None of one that all have."""
    if opcode & 0xFC00 == 0x9C00 or opcode & 0xFE00 == 0x0200:  # with muls, mulsu, fmul, fmuls, fmulsu
        return "mul"
    if opcode & 0xFF00 == 0x0100 or opcode & 0xFE0E == 0x9004:  # `lpm` with a register
        return "movw" if opcode & 0x8000 == 0 else "lpmx"
    if opcode in (EIJMP, EICALL):
        return "eijmp"
    if is_elpm(opcode):
        return "elpm" if opcode == 0x95D8 else "elpmx"
    return "break" if opcode == 0x9598 else None


def is_lpm(opcode: int) -> bool:
    """`lpm` or `elpm`."""
    return opcode == 0x95C8 or opcode & 0xFE0E == 0x9004 or is_elpm(opcode)


def table_added(elf: Elf, word: int) -> Optional[int]:
    """The number that a pair of `subi`, `sbci` (or `ldi`, `ldi`) at a word adds to a pair of registers, or loads; None where these aren't
    there."""
    low, high = elf.word(word), elf.word(word + 1)
    if (low >> 4 & 15) + 1 != high >> 4 & 15 or low >> 4 & 1:
        return None
    if low & 0xF000 == 0x5000 and high & 0xF000 == 0x4000:
        return -(immediate(low) | immediate(high) << 8) % 0x10000
    return immediate(low) | immediate(high) << 8 if is_ldi(low) and is_ldi(high) else None
