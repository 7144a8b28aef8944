"""Firmwares of random straight code: all registers, addressing modes, calls, returns, skips, jumps and reads of flash."""
import random
import typing

from assembler import EIND, INTERRUPT, RAMPZ, SPH, SPL, SREG, ZERO, Code
from operands import BYTES, ONE_REGISTER
from self_test import BYTE, DIGEST, NAUGHT, Device, SelfTest, fold, select_bank

ITEMS = 40                 # between two checks
STORED = 0x180             # bytes of SRAM, from its begin, to which the code stores
COPIES = 0x180             # where the registers are copied at a check, from the begin of SRAM
KEPT = 0x1B0               # where the digest is between two checks
ADDRESS_OF_SREG, ADDRESSES_OF_CORE = 0x5F, (0x5D, 0x5E, 0x5F)
COUNTED = 35               # bytes folded at a check: registers, SREG, stack pointer
X, Y, Z = 26, 28, 30
POINTERS = {"x": X, "y": Y, "z": Z}
LOADS = ("ld_z+", "ld_-z", "ld_y+", "ld_-y", "ld_x", "ld_x+", "ld_-x", *("ldd_y", "ldd_z") * 3)
SUMS = ("cpc", "sbc", "add", "cp", "sub", "adc", "and", "eor", "or", "mov")
# the numbers of `adiw` and `sbiw`, over which a skip may lead: simavr takes words whose low four bits are C to F for two
SHORT_NUMBERS = tuple(number for number in range(64) if number & 12 != 12)
BIT_REGISTER = {"atmega328p": (0x1D, 0), "atmega1284p": (0x1D, 0), "atmega2560": (0x1D, 0)}  # EIMSK, for `sbi` and its kin


class Narrow(typing.NamedTuple):
    """What a mixture leaves out, because some simulator lacks it or is known to do otherwise."""
    wraps: bool = False       # displacements that lead past FFFF
    bits: bool = False        # `sbi`, `cbi`, `sbic`, `sbis`
    fractions: bool = False   # `fmul` and its kin
    banks: bool = False       # RAMPZ other than 0
    own: bool = False         # loads through a pointer that points to itself


ALL_LEFT_OUT = Narrow(True, True, True, True, True)


class Mixture(SelfTest):
    def __init__(self, device: Device, seed: int, blocks: int, left_out: Narrow = Narrow()):
        super().__init__(device)
        self.random = random.Random(seed)
        self.left_out = left_out
        self.bodies: "list[tuple[str, str]]" = []  # functions that are called and not yet written, with their return instructions
        self._fill(seed)
        items = self._items()
        for block in range(blocks):
            for _ in range(ITEMS):
                self.random.choice(items)()
            self._gather(f"block {block}")
        self._check_memory()
        self._write_gather()

    def _items(self) -> "list[typing.Callable[[], None]]":
        often = [(self.plain, 10), (self.pointer, 6), (self.two_words, 2 * self.device.has_long_jumps), (self.skip, 4), (self.branch, 3),
                 (self.call, 2), (self.pushed_return, 1), (self.stack, 2), (self.table, 2), (self.jump, 1)]
        return [item for item, times in often for _ in range(times)]

    # what is compared

    def _fill(self, seed: int) -> None:
        """Sets the digest to 0, and SRAM and the registers to numbers."""
        first = self.device.first
        self.put("eor", BYTE, BYTE)
        for number in range(len(DIGEST) + 1):
            self.put("sts", BYTE, first + KEPT + number)
        self.pair(X, first)
        self.put("ldi", 17, seed & 255 | 1)
        begin = self.label()
        self.put("st_x+", 17)
        self.put("subi", 17, 0x35)
        self._unless_end(begin)
        for register in range(16):
            self.put("ldi", BYTE, self.random.randrange(256))
            self.put("mov", register, BYTE)
        for register in range(16, 32):
            self.put("ldi", register, self.random.randrange(256))

    def _unless_end(self, begin: str) -> None:
        """Back to the label, until X is behind the stored bytes."""
        end = self.device.first + STORED
        for register, byte in ((X, end & 255), (X + 1, end >> 8)):
            self.put("cpi", register, byte)
            self.go("brbc", begin, ZERO)

    def _gather(self, name: str) -> None:
        """Registers, SREG and stack pointer are folded and checked; then the registers are as they were."""
        self.put("bclr", INTERRUPT)
        if self.device.has_long_jumps:
            self.go("call", "gather")
        else:
            for register in (Z, Z + 1):
                self.put("push", register)
            self.pair_of(Z, "gather")
            self.put("icall")
            for register in (Z + 1, Z):
                self.put("pop", register)
        self.check(name)
        for register in range(32):
            self.put("lds", register, self.device.first + COPIES + register)
        if self.bodies:
            after = self.fresh()
            self.go("rjmp", after)
            for body in self.bodies:
                self._function(*body)
            self.bodies = []
            self.label(after)

    def _write_gather(self) -> None:
        copies, kept = self.device.first + COPIES, self.device.first + KEPT
        self.label("gather")
        for register in range(32):
            self.put("sts", register, copies + register)
        for number, place in enumerate((SREG, SPL, SPH), 32):
            self.put("in", BYTE, place)
            self.put("sts", BYTE, copies + number)
        for number, register in enumerate(DIGEST):
            self.put("lds", register, kept + number)
        self.put("eor", NAUGHT, NAUGHT)
        self.pair(X, copies)
        self.put("ldi", 20, COUNTED)
        begin = self.label()
        self.put("ld_x+", BYTE)
        fold(self, BYTE)
        self.put("dec", 20)
        self.go("brbc", begin, ZERO)
        for number, register in enumerate(DIGEST):
            self.put("sts", register, kept + number)
        self.put("ret")

    def _check_memory(self) -> None:
        self.put("eor", NAUGHT, NAUGHT)
        self.pair(X, self.device.first)
        begin = self.label()
        self.put("ld_x+", BYTE)
        fold(self, BYTE, X)
        self._unless_end(begin)
        self.check("memory")
        self.finish()

    # the items

    def any_register(self) -> int:
        return self.random.randrange(32)

    def upper_register(self) -> int:
        return self.random.randrange(16, 32)

    def plain(self) -> None:
        """An instruction of registers and flags, of one word."""
        choose = self.random
        kind = choose.randrange(15)
        if kind < 4:
            self.put(choose.choice(SUMS), self.any_register(), self.any_register())
        elif kind < 6:
            self.put(choose.choice(BYTES), self.upper_register(), choose.randrange(256))
        elif kind < 8:
            self.put(choose.choice(ONE_REGISTER), self.any_register())
        elif kind == 8 and "movw" in self.device.groups:
            self.put("movw", 2 * choose.randrange(16), 2 * choose.randrange(16))
        elif kind == 9:
            self.put(choose.choice(("adiw", "sbiw")), choose.choice((24, X, Y, Z)), choose.choice(SHORT_NUMBERS))
        elif kind == 10:
            self.put(choose.choice(("bst", "bld")), self.any_register(), choose.randrange(8))
        elif kind == 11:
            self.put(choose.choice(("bset", "bclr")), choose.randrange(INTERRUPT))
        elif kind == 12 and "mul" in self.device.groups:
            self._product()
        elif kind == 13:
            self.put("nop")
        else:
            self.put("in", self.any_register(), choose.choice((SREG, SPL, SPH)))

    def _product(self) -> None:
        fractions = () if self.left_out.fractions else ("fmul", "fmuls", "fmulsu")
        name = self.random.choice(("mul", "muls", "mulsu", *fractions))
        end = 32 if name in ("mul", "muls") else 24
        begin = 0 if name == "mul" else 16
        self.put(name, self.random.randrange(begin, end), self.random.randrange(begin, end))

    def address(self, is_stored: bool) -> int:
        kind = self.random.randrange(10)
        if kind < 2:
            return self.any_register()
        if kind == 2:
            return ADDRESS_OF_SREG if is_stored else self.random.choice(ADDRESSES_OF_CORE)
        return self.device.first + self.random.randrange(STORED)

    def two_words(self) -> None:
        kind = self.random.choice(("lds", "sts", "jmp"))
        if kind == "jmp":
            next_word = self.fresh()
            self.go("jmp", next_word)
            self.label(next_word)
        else:
            self.put(kind, self.any_register(), self.address(kind == "sts"))

    def pointer(self) -> None:
        """A load or a store through a pointer that is loaded just before, so the program knows each address and flags no step."""
        load = self.random.choice(LOADS)
        low = POINTERS[load.strip("+-_ld")]
        is_stored = self.random.random() < 0.5
        address = self.address(is_stored)
        is_displaced = load.startswith("ldd")
        displacement = self.random.choice((0, 1, 63, self.random.randrange(64))) if is_displaced else 0
        register = self.any_register()
        while not is_displaced and load != "ld_x" and register in (low, low + 1):
            register = self.any_register()  # the manual leaves these undefined
        begin = address + 1 if "-" in load else address - displacement
        if begin < 0 and self.left_out.wraps or address in (low, low + 1) and (is_stored or self.left_out.own):
            return
        self.pair(low, begin & 0xFFFF)
        name = load.replace("l", "s", 1).replace("sdd", "std").replace("sd_", "st_") if is_stored else load
        self.put(name, register, *([displacement] if is_displaced else []))

    def skip(self) -> None:
        choose = self.random
        kind = choose.randrange(5)
        if kind == 0:
            self.put("cpse", self.any_register(), self.any_register())
        elif kind == 1:
            register = self.any_register()
            self.put("mov", register, self.any_register())
            self.put("cpse", register, register)
        elif kind == 4 and self.device.name in BIT_REGISTER and not self.left_out.bits:
            self._skip_by_place(*BIT_REGISTER[self.device.name])
            return
        else:
            self.put(choose.choice(("sbrc", "sbrs")), self.any_register(), choose.randrange(8))
        self._skipped()

    def _skip_by_place(self, place: int, bit: int) -> None:
        """`sbi` and its kin, with I at 0: the bit enables an interrupt."""
        self.put("bclr", INTERRUPT)
        self.put(self.random.choice(("sbi", "cbi")), place, bit)
        self.put(self.random.choice(("sbic", "sbis")), place, bit)
        self._skipped()
        self.put("cbi", place, bit)

    def _skipped(self) -> None:
        if self.device.has_long_jumps and self.random.random() < 0.5:
            self.two_words()
        else:
            self.plain()

    def branch(self) -> None:
        over = self.fresh()
        self.go(self.random.choice(("brbs", "brbc")), over, self.random.randrange(INTERRUPT))
        for _ in range(self.random.randrange(4)):
            self.plain()
        self.label(over)

    def call(self) -> None:
        function = self.fresh()
        name = self.random.choice(("rcall", "icall", *["call"] * self.device.has_long_jumps, *("eicall", "far") * self.device.has_eind))
        if name == "far":
            self._far_call(function)
        elif name in ("icall", "eicall"):
            self._through_z(name, function)
        else:
            self.go(name, function)
        self.put("in", self.any_register(), SREG)
        self.put("bclr", INTERRUPT)
        self.bodies.append((function, self.random.choice(("ret", "ret", "reti"))))

    def _far_call(self, function: str) -> None:
        """A jump behind 64K words, where a call stands: its return address has a third byte of 1."""
        self.pair(Z, 4 * len(self.far))
        self.put("ldi", BYTE, 1)
        self.put("out", BYTE, EIND)
        self.put("eijmp")
        self.far.append((function, self.label()))

    def _through_z(self, name: str, label: str) -> None:
        """`icall` and `ijmp` take no notice of EIND, which is then 1."""
        self.pair_of(Z, label)
        if self.device.has_eind:
            self.put("ldi", BYTE, int(not name.startswith("e")))
            self.put("out", BYTE, EIND)
        self.put(name)

    def _function(self, name: str, way: str) -> None:
        """It reads its return address, and does a little."""
        self.label(name)
        self.put("in", Z, SPL)
        self.put("in", Z + 1, SPH)
        for number in range(self.device.back):
            self.put("ldd_z", self.random.choice((0, 7, 12, 19, 25)), 1 + number)
        for _ in range(self.random.randrange(3)):
            self.plain()
        self.put("bclr", INTERRUPT)
        self.put(way)

    def pushed_return(self) -> None:
        """A return to a word that was pushed."""
        target = self.fresh()
        self.pair_of(24, target)
        self.put("push", 24)
        self.put("push", 25)
        if self.device.back == 3:
            self.put("ldi", 24, 0)
            self.put("push", 24)
        self.put("ret")
        self.plain()
        self.label(target)

    def stack(self) -> None:
        self.random.choice((self._saved, self._frame, self._saved_flags))()

    def _saved(self) -> None:
        count = self.random.randrange(1, 5)
        for _ in range(count):
            self.put("push", self.any_register())
        self.plain()
        for _ in range(count):
            self.put("pop", self.any_register())

    def _frame(self) -> None:
        """A frame is made and given back, as compilers do it."""
        size = self.random.choice(SHORT_NUMBERS)
        self.put("in", Y, SPL)
        self.put("in", Y + 1, SPH)
        self.put("sbiw", Y, size)
        self.put("in", 0, SREG)
        self.put("bclr", INTERRUPT)
        self.put("out", Y + 1, SPH)
        self.put("out", 0, SREG)
        self.put("bclr", INTERRUPT)
        self.put("out", Y, SPL)
        self.put("adiw", Y, size)
        self.put("out", Y + 1, SPH)
        self.put("out", Y, SPL)

    def _saved_flags(self) -> None:
        self.put("push", BYTE)
        self.put("in", BYTE, SREG)
        self.put("push", BYTE)
        self.plain()
        self.put("pop", BYTE)
        self.put("andi", BYTE, 0x7F)
        self.put("out", BYTE, SREG)
        self.put("pop", BYTE)

    def table(self) -> None:
        """Reads the firmware's first words: no check stands there, where gdb puts a breakpoint."""
        has_banks = bool(self.device.banks)
        kind = self.random.choice(("lpm", *["lpm_z", "lpm_z+"] * ("lpmx" in self.device.groups),
                                   *["elpm"] * has_banks, *["elpm_z", "elpm_z+", "elpm_z+"] * ("elpmx" in self.device.groups)))
        self.pair(Z, self.random.randrange(160))
        if kind.startswith("e"):
            bank = 0 if self.left_out.banks else self.random.choice((0, 1, self.device.banks - 1))
            select_bank(self, 20, bank)
            if self.random.random() < 0.3 and bank < self.device.banks - 1:
                self.pair(Z, 0xFFFF)
        self.put(kind, *([self.random.randrange(Z)] if "_" in kind else []))
        if kind.startswith("e"):
            self.put("in", self.random.randrange(16, Z), RAMPZ)

    def jump(self) -> None:
        target = self.fresh()
        name = self.random.choice(("rjmp", "ijmp", *["jmp"] * self.device.has_long_jumps, *["eijmp"] * self.device.has_eind))
        if name in ("ijmp", "eijmp"):
            self._through_z(name, target)
        else:
            self.go(name, target)
        for _ in range(self.random.randrange(3)):
            self.plain()
        self.label(target)


def save_state(code: Code, at: int, has_sph: bool) -> None:
    """Stores the registers, SREG and the stack pointer from an address on. Changes r16."""
    for register in range(32):
        code.put("sts", register, at + register)
    for number, place in enumerate((SREG, SPL, SPH), 32):
        if place == SPH and not has_sph:
            code.put("ldi", BYTE, 0)
        else:
            code.put("in", BYTE, place)
        code.put("sts", BYTE, at + number)
