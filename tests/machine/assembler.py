"""Words of AVR instructions, and code with labels.

The patterns are those of the AVR Instruction Set Manual. They are written here once more, so that no table of the project is
compared with itself.
"""
import functools
import re
import typing

# name, pattern of its bits, operands. A letter of a pattern is a bit of that operand, the highest first; `2d+24` is the register
# 24 plus twice the number in the bits `d`.
TABLE = """
nop      0000000000000000
movw     00000001ddddrrrr                  2d 2r
muls     00000010ddddrrrr                  d+16 r+16
mulsu    000000110ddd0rrr                  d+16 r+16
fmul     000000110ddd1rrr                  d+16 r+16
fmuls    000000111ddd0rrr                  d+16 r+16
fmulsu   000000111ddd1rrr                  d+16 r+16
cpc      000001rdddddrrrr                  d r
sbc      000010rdddddrrrr                  d r
add      000011rdddddrrrr                  d r
cpse     000100rdddddrrrr                  d r
cp       000101rdddddrrrr                  d r
sub      000110rdddddrrrr                  d r
adc      000111rdddddrrrr                  d r
and      001000rdddddrrrr                  d r
eor      001001rdddddrrrr                  d r
or       001010rdddddrrrr                  d r
mov      001011rdddddrrrr                  d r
cpi      0011kkkkddddkkkk                  d+16 k
sbci     0100kkkkddddkkkk                  d+16 k
subi     0101kkkkddddkkkk                  d+16 k
ori      0110kkkkddddkkkk                  d+16 k
andi     0111kkkkddddkkkk                  d+16 k
ldd_z    10q0qq0ddddd0qqq                  d q
ldd_y    10q0qq0ddddd1qqq                  d q
std_z    10q0qq1ddddd0qqq                  d q
std_y    10q0qq1ddddd1qqq                  d q
lds      1001000ddddd0000kkkkkkkkkkkkkkkk  d k
ld_z+    1001000ddddd0001                  d
ld_-z    1001000ddddd0010                  d
lpm_z    1001000ddddd0100                  d
lpm_z+   1001000ddddd0101                  d
elpm_z   1001000ddddd0110                  d
elpm_z+  1001000ddddd0111                  d
ld_y+    1001000ddddd1001                  d
ld_-y    1001000ddddd1010                  d
ld_x     1001000ddddd1100                  d
ld_x+    1001000ddddd1101                  d
ld_-x    1001000ddddd1110                  d
pop      1001000ddddd1111                  d
sts      1001001ddddd0000kkkkkkkkkkkkkkkk  d k
st_z+    1001001ddddd0001                  d
st_-z    1001001ddddd0010                  d
st_y+    1001001ddddd1001                  d
st_-y    1001001ddddd1010                  d
st_x     1001001ddddd1100                  d
st_x+    1001001ddddd1101                  d
st_-x    1001001ddddd1110                  d
push     1001001ddddd1111                  d
com      1001010ddddd0000                  d
neg      1001010ddddd0001                  d
swap     1001010ddddd0010                  d
inc      1001010ddddd0011                  d
asr      1001010ddddd0101                  d
lsr      1001010ddddd0110                  d
ror      1001010ddddd0111                  d
dec      1001010ddddd1010                  d
bset     100101000sss1000                  s
bclr     100101001sss1000                  s
ijmp     1001010000001001
eijmp    1001010000011001
ret      1001010100001000
reti     1001010100011000
icall    1001010100001001
eicall   1001010100011001
wdr      1001010110101000
lpm      1001010111001000
elpm     1001010111011000
jmp      1001010kkkkk110kkkkkkkkkkkkkkkkk  k
call     1001010kkkkk111kkkkkkkkkkkkkkkkk  k
adiw     10010110kkddkkkk                  2d+24 k
sbiw     10010111kkddkkkk                  2d+24 k
cbi      10011000aaaaabbb                  a b
sbic     10011001aaaaabbb                  a b
sbi      10011010aaaaabbb                  a b
sbis     10011011aaaaabbb                  a b
mul      100111rdddddrrrr                  d r
in       10110aadddddaaaa                  d a
out      10111aadddddaaaa                  d a
rjmp     1100kkkkkkkkkkkk                  k
rcall    1101kkkkkkkkkkkk                  k
ldi      1110kkkkddddkkkk                  d+16 k
brbs     111100kkkkkkksss                  s k
brbc     111101kkkkkkksss                  s k
bld      1111100ddddd0bbb                  d b
bst      1111101ddddd0bbb                  d b
sbrc     1111110ddddd0bbb                  d b
sbrs     1111111ddddd0bbb                  d b
"""

RELATIVE = ("rjmp", "rcall", "brbs", "brbc")
SPL, SPH, RAMPZ, EIND, SREG = 0x3D, 0x3E, 0x3B, 0x3C, 0x3F
ZERO, INTERRUPT = 1, 7
WORDS_OF_A_BANK = 0x10000


class Operand(typing.NamedTuple):
    letter: str
    scale: int
    base: int


class Form(typing.NamedTuple):
    """How an instruction is written: its pattern, and its operands in the order of the assembler."""
    pattern: str
    operands: "tuple[Operand, ...]"

    @property
    def mask(self) -> int:
        """The bits of the first word that are the same in each instruction of this form."""
        return int("".join("1" if it in "01" else "0" for it in self.pattern[:16]), 2)

    @property
    def value(self) -> int:
        return int("".join(it if it in "01" else "0" for it in self.pattern[:16]), 2)

    @property
    def words(self) -> int:
        return len(self.pattern) // 16


def read_operand(text: str) -> Operand:
    found = re.fullmatch(r"(2?)([a-z])(?:\+(\d+))?", text)
    assert found, text
    return Operand(found[2], int(found[1] or 1), int(found[3] or 0))


FORMS = {name: Form(pattern, tuple(map(read_operand, operands)))
         for name, pattern, *operands in (line.split() for line in TABLE.split("\n") if line)}


def encode(name: str, *values: int) -> "list[int]":
    """The words of an instruction. The target of a relative one is its distance from the next word."""
    form = FORMS[name]
    assert len(values) == len(form.operands), (name, values)
    bits = list(form.pattern)
    for operand, value in zip(form.operands, values):
        number, remainder = divmod(value - operand.base, operand.scale)
        places = [place for place, letter in enumerate(form.pattern) if letter == operand.letter]
        is_signed = name in RELATIVE and operand.letter == "k"
        least, most = (-(1 << len(places) - 1), 1 << len(places) - 1) if is_signed else (0, 1 << len(places))
        assert least <= number < most and not remainder, (name, values)
        for shift, place in enumerate(reversed(places)):
            bits[place] = str(number >> shift & 1)
    text = "".join(bits)
    return [int(text[at:at + 16], 2) for at in range(0, len(text), 16)]


@functools.lru_cache(maxsize=None)
def name_of(word: int) -> str:
    """The name of the instruction that a first word begins."""
    return next((name for name, form in FORMS.items() if word & form.mask == form.value), "none")


class Code:
    """Words with labels, which may be used before they are set."""

    def __init__(self) -> None:
        self.words: "list[int]" = []
        self.labels: "dict[str, int]" = {}
        self._later: "list[tuple[int, str, str, tuple[int, ...]]]" = []
        self._fresh = 0

    def here(self) -> int:
        return len(self.words)

    def fresh(self) -> str:
        """A label that nothing has yet."""
        self._fresh += 1
        return f".{self._fresh}"

    def label(self, name: str = "") -> str:
        """Sets a label here, one of its own if none is named."""
        name = name or self.fresh()
        assert name not in self.labels, name
        self.labels[name] = self.here()
        return name

    def put(self, name: str, *values: int) -> None:
        self.words += encode(name, *values)

    def go(self, name: str, label: str, *front: int) -> None:
        """A jump, branch or call whose target is a label; `front` has the operands before it."""
        self._later.append((self.here(), name, label, front))
        self.words += [0] * FORMS[name].words

    def pair(self, low: int, number: int) -> None:
        """Loads a number into a pair of registers from r16 on."""
        self.put("ldi", low, number & 255)
        self.put("ldi", low + 1, number >> 8 & 255)

    def pair_of(self, low: int, label: str) -> None:
        """Loads the word address of a label, without its bank, into a pair of registers."""
        self._later.append((self.here(), "pair", label, (low,)))
        self.words += [0, 0]

    def resolved(self, labels: "dict[str, int] | None" = None) -> "list[int]":
        """The words, with each label's place in them; `labels` are places outside."""
        places, words = {**self.labels, **(labels or {})}, list(self.words)
        for at, name, label, front in self._later:
            target = places[label]
            if name == "pair":
                low, = front
                words[at:at + 2] = encode("ldi", low, target & 255) + encode("ldi", low + 1, target >> 8 & 255)
            else:
                made = encode(name, *front, target if FORMS[name].words == 2 else target - at - 1)
                words[at:at + len(made)] = made
        return words
