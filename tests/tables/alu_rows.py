#!/usr/bin/env python3
"""The rows of crates/value_tables/src/tests/arithmetic/: results and flags at the edges of each operand.

Each flag is the Boolean formula of the instruction, over the bits of the operands and the result. The formulas follow the
Instruction Set Manual (DS40002198) and were written from memory, with no copy of it at hand. Nothing here is taken from the crate. Run: python3 alu_rows.py sums > sums.rt, and the same with bits.
"""

import sys

EDGES = [0x00, 0x01, 0x7F, 0x80, 0x81, 0xFE, 0xFF]
WORD_EDGES = [0x0000, 0x0001, 0x00FF, 0x0100, 0x7FC1, 0x7FFF, 0x8000, 0x803E, 0xFFC0, 0xFFC1, 0xFFFF]
C, Z, N, V, S, H = 0, 1, 2, 3, 4, 5


def bit(x, i):
    return x >> i & 1


def inv(x):
    return 1 - x


def put(s, **flags):
    """The register s with the named flags, and with S = N xor V where N and V are named."""
    if "N" in flags:
        flags["S"] = flags["N"] ^ flags["V"]
    for name, value in flags.items():
        i = {"C": C, "Z": Z, "N": N, "V": V, "S": S, "H": H}[name]
        s = s & ~(1 << i) | value << i
    return s


def is_zero(r, width=8):
    z = 1
    for i in range(width):
        z &= inv(bit(r, i))
    return z


def add(d, r, c, s):  # ADC
    x = (d + r + c) & 0xFF

    def carry(i):
        return bit(d, i) & bit(r, i) | bit(r, i) & inv(bit(x, i)) | inv(bit(x, i)) & bit(d, i)

    v = bit(d, 7) & bit(r, 7) & inv(bit(x, 7)) | inv(bit(d, 7)) & inv(bit(r, 7)) & bit(x, 7)
    return x, put(s, H=carry(3), V=v, N=bit(x, 7), Z=is_zero(x), C=carry(7))


def sub(d, r, c, keep, s):  # SUB, and SBC where keep
    x = (d - r - c) & 0xFF

    def borrow(i):
        return inv(bit(d, i)) & bit(r, i) | bit(r, i) & bit(x, i) | bit(x, i) & inv(bit(d, i))

    v = bit(d, 7) & inv(bit(r, 7)) & inv(bit(x, 7)) | inv(bit(d, 7)) & bit(r, 7) & bit(x, 7)
    z = is_zero(x) & bit(s, Z) if keep else is_zero(x)
    return x, put(s, H=borrow(3), V=v, N=bit(x, 7), Z=z, C=borrow(7))


def logic(name, d, r, s):
    x = {"And": d & r, "Or": d | r, "Eor": d ^ r}[name]
    return x, put(s, V=0, N=bit(x, 7), Z=is_zero(x))


def com(d, s):
    x = 0xFF - d
    return x, put(s, V=0, N=bit(x, 7), Z=is_zero(x), C=1)


def inc(d, s):
    x = (d + 1) & 0xFF
    v = bit(x, 7)
    for i in range(7):
        v &= inv(bit(x, i))
    return x, put(s, V=v, N=bit(x, 7), Z=is_zero(x))


def dec(d, s):
    x = (d - 1) & 0xFF
    v = inv(bit(x, 7))
    for i in range(7):
        v &= bit(x, i)
    return x, put(s, V=v, N=bit(x, 7), Z=is_zero(x))


def shift(name, d, s):
    top = {"Lsr": 0, "Ror": bit(s, C), "Asr": bit(d, 7)}[name]
    x = d >> 1 | top << 7
    c = bit(d, 0)
    n = bit(x, 7)
    return x, put(s, C=c, N=n, V=n ^ c, Z=is_zero(x))


def signed(x):
    return x - 256 if bit(x, 7) else x


def mul(name, d, r, s):
    left = d if name in ("Mul", "Fmul") else signed(d)
    right = signed(r) if name in ("Muls", "Fmuls") else r
    x = left * right & 0xFFFF
    c = bit(x, 15)
    if name.startswith("F"):
        x = x << 1 & 0xFFFF
    return x, put(s, C=c, Z=is_zero(x, 16))


def wide(up, d, k, s):
    if up:  # ADIW
        x = (d + k) & 0xFFFF
        v = inv(bit(d, 15)) & bit(x, 15)
        c = inv(bit(x, 15)) & bit(d, 15)
    else:  # SBIW
        x = (d - k) & 0xFFFF
        v = bit(d, 15) & inv(bit(x, 15))
        c = bit(x, 15) & inv(bit(d, 15))
    return x, put(s, V=v, N=bit(x, 15), Z=is_zero(x, 16), C=c)


def show(v):
    if isinstance(v, bool):
        return "true" if v else "false"
    if isinstance(v, str):
        return v
    return "0x%04X" % v if v > 0xFF else "0x%02X" % v


def side(answer):
    return "[%s]" % ", ".join(show(v) for v in answer)


def both(f, *args):
    """The result with the register after it, from no flag and from every flag."""
    return f(*args, 0x00), f(*args, 0xFF)


PAIRS = [(d, r) for d in EDGES for r in EDGES]
WORDS = [(d, k) for d in WORD_EDGES for k in (0, 1, 63)]

# An instruction, its operands, and the rows: two operands, a carry, and both answers.
SUMS = [
    ("ADC", "operands and carry", [(d, r, bool(c), *both(add, d, r, c)) for d, r in PAIRS for c in (0, 1)]),
    ("SUB", "operands and borrow", [(d, r, bool(c), *both(sub, d, r, c, False)) for d, r in PAIRS for c in (0, 1)]),
    ("SBC", "operands and borrow", [(d, r, bool(c), *both(sub, d, r, c, True)) for d, r in PAIRS for c in (0, 1)]),
    ("ADIW", "word and what is added", [(d, k, False, *both(wide, True, d, k)) for d, k in WORDS]),
    ("SBIW", "word and what is taken", [(d, k, False, *both(wide, False, d, k)) for d, k in WORDS]),
]
BITS = []
for n in ("And", "Or", "Eor"):
    BITS.append((n.upper(), "operands", [(d, r, False, *both(logic, n, d, r)) for d, r in PAIRS if r >= d]))
for n, f in (("COM", com), ("INC", inc), ("DEC", dec)):
    BITS.append((n, "operand", [(d, 0, False, *both(f, d)) for d in EDGES]))
for n in ("Lsr", "Ror", "Asr"):
    BITS.append((n.upper(), "operand", [(d, 0, False, *both(shift, n, d)) for d in EDGES]))
for n in ("Mul", "Muls", "Mulsu", "Fmul", "Fmuls", "Fmulsu"):
    BITS.append((n.upper(), "operands", [(d, r, False, *both(mul, n, d, r)) for d, r in PAIRS if r >= d or "su" in n]))
TABLES, what = {
    "sums": (SUMS, "sums and differences, of bytes and of words"),
    "bits": (BITS, "logic, single bits, shifts and products"),
}[sys.argv[1]]

print("""//! Results and flags at the edges of each operand, of %s.
//! These rows were computed by `tests/tables/alu_rows.py`, and not by this crate, from the manual's Boolean formulas
//! (DS40002198) as remembered; they were not copied from it.
//! Operands come first, and 0 or false in place of one that there isn't; then the result with SREG after the operation from
//! 0x00, and the same from 0xFF.

use super::{Row, %s};""" % (what, ", ".join(sorted(name for name, _, _ in TABLES))))
print("\npub static TABLES: [(&str, &[Row]); %d] = [" % len(TABLES))
for name, doc, rows in TABLES:
    print("    // %s" % doc)
    print("    (\n        \"%s\",\n        &[" % name.lower())
    for a, b, carry, clear, full in rows:
        print("            Row(%s, %s, %s, %s, %s, %s)," % (name, show(a), show(b), show(carry), side(clear), side(full)))
    print("        ],\n    ),")
print("];")
