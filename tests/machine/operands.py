"""Firmwares that try instructions over all their operands."""
import typing

from assembler import INTERRUPT, SREG, ZERO
from self_test import FLAGS, Device, SelfTest, clear_digest, fold

FEW_FLAGS = (0x00, 0x7F)
CARRY_FLAGS = (0x00, 0x01, 0x02, 0x7F)  # for instructions that read C or Z
LEFT, RIGHT = 16, 17                    # the operands
FIRST, SECOND, STATUS = 20, 21, 22      # the counters of the loops
PRODUCTS = ("mul", "muls", "mulsu", "fmul", "fmuls", "fmulsu")
TWO_REGISTERS = ("add", "sub", "and", "or", "eor", "mov", "cp", "cpse", "adc", "sbc", "cpc", *PRODUCTS)
BYTES = ("cpi", "subi", "andi", "ori", "ldi", "sbci")
ONE_REGISTER = ("com", "neg", "swap", "inc", "dec", "asr", "lsr", "ror")
READ_CARRY = ("adc", "sbc", "cpc", "sbci")


def flags_for(name: str) -> "tuple[int, ...]":
    return CARRY_FLAGS if name in READ_CARRY else FEW_FLAGS


def every_byte(test: SelfTest, register: int, body: "typing.Callable[[], None]") -> None:
    """A loop in which a register takes all bytes."""
    test.put("ldi", register, 0)
    begin = test.label()
    body()
    test.put("inc", register)
    test.go("brbc", begin, ZERO)


def two_registers(device: Device, names: "typing.Sequence[str]") -> SelfTest:
    """All 65,536 operands of each of these instructions."""
    test = SelfTest(device)

    def one(name: str) -> None:
        test.put("mov", LEFT, FIRST)
        test.put("mov", RIGHT, SECOND)
        test.put("out", STATUS, SREG)
        test.put(name, LEFT, RIGHT)
        if name == "cpse":
            test.put("com", LEFT)
        test.put("in", FLAGS, SREG)
        fold(test, *((0, 1) if name in PRODUCTS else (LEFT,)), FLAGS)

    def all_of(name: str) -> "typing.Callable[[], None]":
        return lambda: every_byte(test, SECOND, lambda: one(name))

    for name in names:
        clear_digest(test)
        for flags in flags_for(name):
            test.put("ldi", STATUS, flags)
            every_byte(test, FIRST, all_of(name))
        test.check(name)
    test.finish()
    return test


def register_and_byte(device: Device, name: str) -> SelfTest:
    """All 65,536 operands of an instruction with a byte in its word: one copy of it for each byte."""
    test = SelfTest(device)
    clear_digest(test)
    for flags in flags_for(name):
        test.put("ldi", STATUS, flags)
        test.go("call", "copies")
    test.check(name)
    test.finish()

    def one(byte: int) -> None:
        test.put("mov", LEFT, FIRST)
        test.put("out", STATUS, SREG)
        test.put(name, LEFT, byte)
        test.go("call", "fold")

    def of(byte: int) -> "typing.Callable[[], None]":
        return lambda: one(byte)

    test.label("copies")
    for byte in range(256):
        every_byte(test, FIRST, of(byte))
    test.put("ret")
    test.label("fold")
    test.put("in", FLAGS, SREG)
    fold(test, LEFT, FLAGS)
    test.put("ret")
    return test


Instruction = typing.Tuple[str, typing.Tuple[int, ...]]


def byte_and_flags(device: Device, tried: "typing.Sequence[tuple[str, typing.Sequence[Instruction]]]") -> SelfTest:
    """Each of these sequences with every byte in r16 and all flags but I; each has the name of its check."""
    test = SelfTest(device)

    def one(instructions: "typing.Sequence[Instruction]") -> None:
        test.put("mov", LEFT, FIRST)
        test.put("mov", RIGHT, STATUS)
        test.put("out", STATUS, SREG)
        for name, values in instructions:
            test.put(name, *values)
        test.put("in", FLAGS, SREG)
        fold(test, LEFT, FLAGS)

    def of(instructions: "typing.Sequence[Instruction]") -> "typing.Callable[[], None]":
        return lambda: one(instructions)

    for check, instructions in tried:
        clear_digest(test)
        test.put("ldi", STATUS, 0)
        begin = test.label()
        every_byte(test, FIRST, of(instructions))
        test.put("inc", STATUS)
        test.put("sbrs", STATUS, INTERRUPT)
        test.go("rjmp", begin)
        test.check(check)
    test.finish()
    return test


def one_register(device: Device) -> SelfTest:
    return byte_and_flags(device, [(name, [(name, (LEFT,))]) for name in ONE_REGISTER])


def bits_of_registers(device: Device) -> SelfTest:
    return byte_and_flags(device, [(f"{name} {bit}", [(name, (LEFT, bit))]) for name in ("bst", "bld") for bit in range(8)])


def skips_by_bits(device: Device) -> SelfTest:
    skips = [(name, bit) for name in ("sbrc", "sbrs") for bit in range(8)]
    return byte_and_flags(device, [(f"{name} {bit}", [(name, (LEFT, bit)), ("com", (LEFT,))]) for name, bit in skips])


def status_bits(device: Device) -> SelfTest:
    """Each flag is set, cleared and tested, with every byte of flags."""
    test = SelfTest(device)

    def one(name: str, bit: int) -> None:
        test.put("mov", LEFT, STATUS)
        test.put("out", STATUS, SREG)
        if name in ("brbs", "brbc"):
            over = test.fresh()
            test.go(name, over, bit)
            test.put("swap", LEFT)
            test.label(over)
        else:
            test.put(name, bit)
        test.put("in", FLAGS, SREG)
        test.put("bclr", INTERRUPT)
        fold(test, LEFT, FLAGS)

    def of(name: str, bit: int) -> "typing.Callable[[], None]":
        return lambda: one(name, bit)

    for bit in range(8):
        for name in ("bset", "bclr", "brbs", "brbc"):
            clear_digest(test)
            every_byte(test, STATUS, of(name, bit))
            test.check(f"{name} {bit}")
    test.finish()
    return test


PAIRS = (24, 26, 28, 30)
HIGH_BYTES = (0x00, 0x01, 0x0F, 0x10, 0x3F, 0x7E, 0x7F, 0x80, 0x81, 0xC0, 0xFE, 0xFF)


def words_of_pairs(device: Device, name: str) -> SelfTest:
    """`adiw` or `sbiw` with each of its 64 numbers, over all low bytes and up to twelve high ones."""
    test = SelfTest(device)
    call = "call" if device.has_long_jumps else "rcall"

    def one(pair: int, high: int, number: int) -> None:
        test.put("mov", pair, FIRST)
        test.put("ldi", pair + 1, high)
        test.put("out", STATUS, SREG)
        test.put(name, pair, number)
        test.put("in", FLAGS, SREG)
        test.go(call, f"fold {pair}")

    def of(pair: int, high: int, number: int) -> "typing.Callable[[], None]":
        return lambda: one(pair, high, number)

    for number in range(64):
        pair = PAIRS[number % 4]
        clear_digest(test)
        for flags in FEW_FLAGS:
            test.put("ldi", STATUS, flags)
            for high in HIGH_BYTES[::1 if number % 8 in (0, 1, 7) else 3]:
                every_byte(test, FIRST, of(pair, high, number))
        test.check(f"{name} {number}")
        if number == 31:
            # in the middle, where `rcall` reaches them
            test.go("rjmp", "behind")
            for low in PAIRS:
                test.label(f"fold {low}")
                fold(test, low, low + 1, FLAGS)
                test.put("ret")
            test.label("behind")
    test.finish()
    return test
