"""Firmwares that test the machine which runs them.

What the instructions give is folded into a digest of 32 bits. At a *check* the firmware compares the digest with a number in its flash,
and goes on only if it is that number; else it leaves for an erased word that says which check it was. A firmware that has passed every
check leaves for the first erased word of all. So a simulator that shows nothing but the word at which it stopped can be compared by every
register, flag and byte of memory.
"""
import csv
import pathlib
import typing

from assembler import RAMPZ, SPH, SPL, WORDS_OF_A_BANK, Code, encode

TABLE_OF_DEVICES = pathlib.Path(__file__).resolve().parent.parent / "devices" / "devices.tsv"
DIGEST = (2, 3, 4, 5)  # the registers of the digest
NAUGHT = 6             # a register that is 0 while something is folded
BYTE, FLAGS = 16, 18   # scratch registers
AWAY = 16              # erased words between PASS and the failures


class Device(typing.NamedTuple):
    """What a firmware has to know of its device."""
    name: str
    words: int              # of flash
    first: int              # the first address of SRAM
    last: int
    back: int               # bytes of a return address
    has_sph: bool
    groups: "frozenset[str]"  # instructions beside the core ones
    words_of_a_vector: int
    vectors: int
    kind: str               # the name under which the program knows it

    @property
    def banks(self) -> int:
        """Banks of 64 KiB of flash, among which RAMPZ chooses; 0 for a device without RAMPZ."""
        return self.words // (WORDS_OF_A_BANK // 2) if "elpm" in self.groups else 0

    @property
    def has_eind(self) -> bool:
        return "eijmp" in self.groups

    @property
    def has_long_jumps(self) -> bool:
        return "jmp" in self.groups


def devices() -> "dict[str, Device]":
    with TABLE_OF_DEVICES.open(encoding="utf8") as table:
        return {row["name"]: Device(row["name"], int(row["words"]), int(row["sram"], 16), int(row["ramend"], 16), int(row["bytes of PC"]),
                                    row["bytes of SP"] == "2", frozenset(row["instructions beside the core ones"].split(",")),
                                    int(row["words per vector"]), int(row["vectors"]), row["class"])
                for row in csv.DictReader(table, delimiter="\t")}


def fold(code: Code, *registers: int) -> None:
    """Adds registers to the digest, spreads them over its bytes, and turns it by one bit to the left."""
    for number, register in enumerate(registers):
        code.put("adc" if number else "add", DIGEST[number], register)
    code.put("adc", DIGEST[2], DIGEST[0])
    code.put("adc", DIGEST[3], DIGEST[1])
    for number, register in enumerate(DIGEST):
        code.put("adc" if number else "add", register, register)
    code.put("adc", DIGEST[0], NAUGHT)


def clear_digest(code: Code) -> None:
    for register in (*DIGEST, NAUGHT):
        code.put("eor", register, register)


class SelfTest(Code):
    """A firmware with checks. Its table of digests stands after the code, and PASS is the first erased word after the table."""

    def __init__(self, device: Device):
        super().__init__()
        self.device = device
        self.checks: "list[str]" = []
        self.far: "list[tuple[str, str]]" = []  # calls from behind 64K words: the function, and where its caller goes on
        self._set_up()

    def _set_up(self) -> None:
        """The stack pointer is at the end of SRAM, and I is 0: simulators differ in both after reset."""
        if self.device.has_sph:
            self.put("ldi", BYTE, self.device.last >> 8)
            self.put("out", BYTE, SPH)
        self.put("ldi", BYTE, self.device.last & 255)
        self.put("out", BYTE, SPL)
        self.put("bclr", 7)

    def check(self, name: str) -> None:
        """Compares the digest with the next number of the table. Changes r16, r30 and r31."""
        number = len(self.checks)
        self.checks.append(name)
        self.label(f"check {number}")
        self._pair_of_byte(30, f"digest {number}")
        for register in DIGEST:
            self.put("lpm_z+", BYTE)
            self.put("cpse", BYTE, register)
            self.go("rjmp", f"failure {number}")
        self.go("rjmp", f"success {number}")
        self.label(f"failure {number}")
        self.pair_of(30, f"FAIL {number}")
        self.put("ijmp")
        self.label(f"success {number}")

    def _pair_of_byte(self, low: int, label: str) -> None:
        self.pair_of(low, f"byte of {label}")

    def finish(self) -> None:
        self.pair_of(30, "PASS")
        self.put("ijmp")

    @property
    def passing(self) -> int:
        """The word PASS."""
        return self.here() + 2 * len(self.checks)

    @property
    def failing(self) -> int:
        """The word at which a machine stops that fails the first check; those of the others follow."""
        return self.passing + AWAY

    def image(self, digests: "typing.Sequence[int]" = ()) -> bytes:
        """The firmware with the digests of its checks; 0 for those that are not known."""
        table = self.here()
        assert self.failing + len(self.checks) < min(self.device.words, WORDS_OF_A_BANK), "the firmware is too large"
        places = {"PASS": self.passing}
        for number in range(len(self.checks)):
            places[f"byte of digest {number}"] = 2 * (table + 2 * number)
            places[f"FAIL {number}"] = self.failing + number
        words = self.resolved(places)
        for number in range(len(self.checks)):
            digest = digests[number] if number < len(digests) else 0
            words += [digest & 0xFFFF, digest >> 16]
        if self.far:
            words += [0xFFFF] * (WORDS_OF_A_BANK - len(words))
            for function, after in self.far:
                words += encode("call", self.labels[function]) + encode("jmp", self.labels[after])
        return b"".join(word.to_bytes(2, "little") for word in words)

    def outcome(self, word: int) -> str:
        """What it says of a machine that it stopped at this word."""
        number = word - self.failing
        if word == self.passing:
            return "pass"
        return f"differs at check {self.checks[number]}" if 0 <= number < len(self.checks) else f"stops at word {word:04X}"

    def stops(self) -> "dict[int, str]":
        """The words of the code from which it leaves for PASS or for a failure, for simulators that cannot stop at an erased word."""
        places = {self.passing: "pass"}
        for number, name in enumerate(self.checks):
            places[self.labels[f"failure {number}"] + 2] = f"differs at check {name}"
        return places


def select_bank(code: Code, register: int, bank: int) -> None:
    code.put("ldi", register, bank)
    code.put("out", register, RAMPZ)
