"""Faults that lockstep plants: each is a machine that is right but for one thing, and has to be found.

The machine with a fault is libsimavr, of whose state the driver changes something after an instruction: a bit of the register, a flag, a
byte of memory, the order of two pushed bytes, the next word. In a firmware over all operands that happens at one execution alone, in a
mixture at each.
"""
import typing

from assembler import FORMS, encode
from operands import LEFT, ONE_REGISTER, RIGHT, TWO_REGISTERS
from simulators import Fault

ONCE = 300          # the execution at which a fault happens that happens once
BIT = 0x10
SIX_FLAGS, FIVE_FLAGS, FOUR_FLAGS = range(6), range(5), range(1, 5)
SPL, RAMPZ = 0x5D, 0x5B  # addresses
FIRST_PLACE = 0x20       # the address of the first I/O register

Effect = typing.Tuple[str, int, int]  # kind, argument and bits of a Fault
REGISTER, UPPER, MEMORY, PUSHED = (("register", 0, BIT), ("upper", 0, BIT), ("memory", 0, 1), ("pushed", 0, 1))
MOVED_STACK = ("byte", SPL, 1)


def moved(low: int) -> Effect:
    """A pointer that is moved wrongly."""
    return "byte", low, 1


# instructions, what is changed behind them, and the flags of which each is changed besides
ROWS: "list[tuple[str, list[Effect], typing.Iterable[int]]]" = [
    ("add adc sub sbc neg", [REGISTER], SIX_FLAGS),
    ("cp cpc cpi", [], SIX_FLAGS),
    ("subi sbci", [UPPER], SIX_FLAGS),
    ("and or eor inc dec", [REGISTER], FOUR_FLAGS),
    ("andi ori", [UPPER], FOUR_FLAGS),
    ("com asr lsr ror", [REGISTER], FIVE_FLAGS),
    ("mov swap bld in ld_x ldd_y ldd_z lds lpm_z elpm_z", [REGISTER], ()),
    ("ldi", [UPPER], ()),
    ("adiw sbiw", [("pair", 0, BIT)], FIVE_FLAGS),
    ("mul muls mulsu fmul fmuls fmulsu", [("byte", 0, BIT), ("byte", 1, BIT)], (0, 1)),
    ("bst", [], (6,)),
    ("movw", [("moved", 0, BIT)], ()),
    ("nop", [("byte", 7, BIT)], ()),
    ("cpse sbrc sbrs sbic sbis", [("taken", 0, 0), ("skip", 0, 0)], ()),
    ("brbs brbc", [("taken", 0, 0)], ()),
    ("rjmp jmp ijmp eijmp", [("counter", 1, 0)], ()),
    ("rcall call icall eicall", [PUSHED, ("order", 0, 0)], ()),
    ("ret", [("counter", 1, 0), MOVED_STACK], ()),
    ("reti", [("counter", 1, 0), MOVED_STACK], (7,)),
    ("push", [PUSHED, MOVED_STACK], ()),
    ("pop", [REGISTER, MOVED_STACK], ()),
    ("lpm elpm", [("byte", 0, BIT)], ()),
    ("ld_x+ ld_-x", [REGISTER, moved(26)], ()),
    ("ld_y+ ld_-y", [REGISTER, moved(28)], ()),
    ("ld_z+ ld_-z lpm_z+", [REGISTER, moved(30)], ()),
    ("elpm_z+", [REGISTER, moved(30), moved(RAMPZ)], ()),
    ("st_x std_y std_z sts sbi cbi", [MEMORY], ()),
    ("st_x+ st_-x", [MEMORY, moved(26)], ()),
    ("st_y+ st_-y", [MEMORY, moved(28)], ()),
    ("st_z+ st_-z", [MEMORY, moved(30)], ())]


def effects_of(name: str) -> "list[Effect]":
    return [effect for names, results, flags in ROWS if name in names.split()
            for effect in [*results, *(("flag", flag, 0) for flag in flags)]]


def faults_of(name: str, is_once: bool) -> "list[Fault]":
    """The faults of an instruction; once in a firmware over all operands, where it is the one that is tried."""
    once = ONCE if is_once else 0
    form = FORMS[name]
    if name in ("bset", "bclr"):
        return [Fault(0xFFFF, encode(name, bit)[0], 0, "flag", bit, 0) for bit in range(8)]
    if name == "out":
        return [Fault(0xFE0F, encode(name, 0, SPL - FIRST_PLACE)[0], once, *MOVED_STACK)]
    mask, value = form.mask, form.value
    if is_once and name in TWO_REGISTERS + ONE_REGISTER:
        mask, value = 0xFFFF, encode(name, *(LEFT, RIGHT)[:len(form.operands)])[0]
    # no firmware over all operands skips two words
    return [Fault(form.mask, form.value, 0, *effect) if effect[0] == "skip" else Fault(mask, value, once, *effect)
            for effect in effects_of(name)]
