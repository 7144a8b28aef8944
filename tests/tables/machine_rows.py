#!/usr/bin/env python3
"""The rows of crates/machine_tables/src/tests/steps/rows.rt: small programs, and the machine after them.

A model of its own, after the Instruction Set Manual (DS40002198) and the data sheet: opcodes by the manual's patterns, and
flags by its Boolean formulas, both written from memory. It shares nothing with the crates. Run: python3 machine_rows.py > rows.rt
"""

RAMEND = 0x08FF

HELD = {0x3D: 0x03, 0x68: 0x07, 0x60: 0x40, 0x70: 0x07, 0x6F: 0x27, 0x6E: 0x07, 0x4C: 0x80, 0xC1: 0xE0,
        0x7A: 0x08, 0x3F: 0x08, 0x50: 0x08, 0xBC: 0x01, 0x57: 0x80}

BINARY = {"cpc": 0b000001, "sbc": 0b000010, "add": 0b000011, "cpse": 0b000100, "cp": 0b000101, "sub": 0b000110,
          "adc": 0b000111, "and": 0b001000, "eor": 0b001001, "or": 0b001010, "mov": 0b001011, "mul": 0b100111}
IMMEDIATE = {"cpi": 3, "sbci": 4, "subi": 5, "ori": 6, "andi": 7, "ldi": 14}
UNARY = {"com": 0, "neg": 1, "swap": 2, "inc": 3, "asr": 5, "lsr": 6, "ror": 7, "dec": 10}
POINTERS = {"Z+": 1, "-Z": 2, "Y+": 9, "-Y": 10, "X": 12, "X+": 13, "-X": 14}
PLAIN = {"nop": 0x0000, "ijmp": 0x9409, "icall": 0x9509, "ret": 0x9508, "reti": 0x9518, "sleep": 0x9588,
         "break": 0x9598, "wdr": 0x95A8, "lpm0": 0x95C8}


def assemble(op, *f):
    """The words of an instruction."""
    if op in PLAIN:
        return [PLAIN[op]]
    if op in BINARY:
        d, r = f
        return [BINARY[op] << 10 | (r >> 4) << 9 | d << 4 | r & 15]
    if op in IMMEDIATE:
        d, k = f
        return [IMMEDIATE[op] << 12 | (k >> 4) << 8 | (d - 16) << 4 | k & 15]
    if op in UNARY:
        return [0x9400 | f[0] << 4 | UNARY[op]]
    if op == "movw":
        return [0x0100 | (f[0] // 2) << 4 | f[1] // 2]
    if op == "muls":
        return [0x0200 | (f[0] - 16) << 4 | f[1] - 16]
    if op in ("mulsu", "fmul", "fmuls", "fmulsu"):
        base = {"mulsu": 0x0300, "fmul": 0x0308, "fmuls": 0x0380, "fmulsu": 0x0388}[op]
        return [base | (f[0] - 16) << 4 | f[1] - 16]
    if op in ("ldd", "std"):
        base, q, r = f
        word = 0x8000 | (q >> 5) << 13 | (q >> 3 & 3) << 10 | q & 7 | r << 4
        return [word | (0x0008 if base == "Y" else 0) | (0x0200 if op == "std" else 0)]
    if op == "lds":
        return [0x9000 | f[0] << 4, f[1]]
    if op == "sts":
        return [0x9200 | f[1] << 4, f[0]]
    if op == "ld":
        return [0x9000 | f[0] << 4 | POINTERS[f[1]]]
    if op == "st":
        return [0x9200 | f[1] << 4 | POINTERS[f[0]]]
    if op == "lpm":
        return [0x9004 | f[0] << 4]
    if op == "lpm+":
        return [0x9005 | f[0] << 4]
    if op == "pop":
        return [0x900F | f[0] << 4]
    if op == "push":
        return [0x920F | f[0] << 4]
    if op == "bset":
        return [0x9408 | f[0] << 4]
    if op == "bclr":
        return [0x9488 | f[0] << 4]
    if op in ("jmp", "call"):
        return [0x940C if op == "jmp" else 0x940E, f[0]]
    if op in ("adiw", "sbiw"):
        d, k = f
        return [(0x9600 if op == "adiw" else 0x9700) | (k >> 4) << 6 | (d - 24) // 2 << 4 | k & 15]
    if op in ("cbi", "sbic", "sbi", "sbis"):
        return [{"cbi": 0x9800, "sbic": 0x9900, "sbi": 0x9A00, "sbis": 0x9B00}[op] | f[0] << 3 | f[1]]
    if op == "in":
        return [0xB000 | (f[1] >> 4) << 9 | f[0] << 4 | f[1] & 15]
    if op == "out":
        return [0xB800 | (f[0] >> 4) << 9 | f[1] << 4 | f[0] & 15]
    if op in ("rjmp", "rcall"):
        return [(0xC000 if op == "rjmp" else 0xD000) | f[0] & 0xFFF]
    if op in ("brbs", "brbc"):
        return [(0xF000 if op == "brbs" else 0xF400) | (f[1] & 0x7F) << 3 | f[0]]
    if op in ("bld", "bst", "sbrc", "sbrs"):
        return [{"bld": 0xF800, "bst": 0xFA00, "sbrc": 0xFC00, "sbrs": 0xFE00}[op] | f[0] << 4 | f[1]]
    raise ValueError(op)


class Machine:
    def __init__(self, pointer, inputs):
        self.r = initial_registers(pointer)
        self.ram = {a: initial_byte(a) for a in range(0x0100, 0x0900)}
        self.pc, self.sp, self.s = 0, RAMEND, [0] * 8
        self.open, self.delay, self.depth = False, False, 0
        self.held = {a: 0 for a in HELD}
        self.inputs = inputs
        self.live = set()

    def sreg(self):
        return sum(bit << i for i, bit in enumerate(self.s))

    def read(self, a):
        a %= 65536
        if a < 0x20:
            return self.r[a]
        if a == 0x5D:
            return self.sp & 0xFF
        if a == 0x5E:
            return self.sp >> 8
        if a == 0x5F:
            return self.sreg()
        if a in HELD:
            return self.held[a] | self.inputs[0] & ~HELD[a] & 0xFF
        if a in self.ram:
            return self.ram[a]
        return self.inputs[0]

    def write(self, a, byte):
        a %= 65536
        if a < 0x20:
            self.r[a] = byte
        elif a == 0x5D:
            self.sp, self.open = self.sp & 0xFF00 | byte, False
        elif a == 0x5E:
            self.sp, self.open = self.sp & 0xFF | byte << 8, True
        elif a == 0x5F:
            self.s = [byte >> i & 1 for i in range(8)]
        elif a in HELD:
            self.held[a] = byte & HELD[a]
        elif a in self.ram:
            self.ram[a] = byte

    def push(self, byte):
        assert self.sp in self.ram
        self.ram[self.sp] = byte
        self.live.add(self.sp)
        self.sp -= 1
        self.open = False

    def pop(self, byte):
        self.sp = (self.sp + 1) % 65536
        self.open = False
        if self.sp in self.ram or self.sp < 0x20 or self.sp in (0x5D, 0x5E, 0x5F):
            return self.read(self.sp)
        return byte

    def word(self, r):
        return self.r[r] | self.r[r + 1] << 8

    def set_word(self, r, word):
        self.r[r], self.r[r + 1] = word & 0xFF, word >> 8 & 0xFF

    def flags(self, **values):
        for name, value in values.items():
            self.s["CZNVSHTI".index(name)] = value & 1

    def signs(self, result, v, width=7):
        n = result >> width & 1
        self.flags(N=n, V=v, S=n ^ v, Z=int(result == 0))

    def add(self, d, r, c):
        res = (d + r + c) & 0xFF
        b = lambda x, i: x >> i & 1  # noqa: E731
        carry = lambda i: b(d, i) & b(r, i) | b(r, i) & ~b(res, i) & 1 | ~b(res, i) & 1 & b(d, i)  # noqa: E731
        v = b(d, 7) & b(r, 7) & ~b(res, 7) & 1 | ~b(d, 7) & ~b(r, 7) & 1 & b(res, 7)
        self.signs(res, v)
        self.flags(C=carry(7), H=carry(3))
        return res

    def sub(self, d, r, c, keep):
        z = self.s[1]
        res = (d - r - c) & 0xFF
        b = lambda x, i: x >> i & 1  # noqa: E731
        borrow = lambda i: ~b(d, i) & 1 & b(r, i) | b(r, i) & b(res, i) | b(res, i) & ~b(d, i) & 1  # noqa: E731
        v = b(d, 7) & ~b(r, 7) & ~b(res, 7) & 1 | ~b(d, 7) & 1 & b(r, 7) & b(res, 7)
        self.signs(res, v)
        self.flags(C=borrow(7), H=borrow(3))
        if keep:
            self.flags(Z=self.s[1] & z)
        return res

    def logic(self, res):
        self.signs(res, 0)
        return res

    def multiply(self, a, b, shift):
        product = a * b & 0xFFFF
        res = product << shift & 0xFFFF
        self.flags(C=product >> 15, Z=int(res == 0))
        self.set_word(0, res)

    def skip(self, program, test):
        if test:
            self.pc += len(assemble(*program[self.pc % 16384])) if self.pc % 16384 in program else 1

    def step(self, program, flash):
        op, *f = program[self.pc]
        at = self.pc
        self.pc = at + len(assemble(op, *f))
        was_on, delay = self.s[7], False
        signed = lambda x: x - 256 if x >= 128 else x  # noqa: E731
        pair_of = {"X": 26, "Y": 28, "Z": 30}
        if op in BINARY:
            d, r = self.r[f[0]], self.r[f[1]]
            if op in ("add", "adc"):
                self.r[f[0]] = self.add(d, r, self.s[0] if op == "adc" else 0)
            elif op in ("sub", "sbc"):
                self.r[f[0]] = self.sub(d, r, self.s[0] if op == "sbc" else 0, op == "sbc")
            elif op in ("cp", "cpc"):
                self.sub(d, r, self.s[0] if op == "cpc" else 0, op == "cpc")
            elif op == "cpse":
                self.skip(program, d == r)
            elif op == "mov":
                self.r[f[0]] = r
            elif op == "mul":
                self.multiply(d, r, 0)
            else:
                self.r[f[0]] = self.logic({"and": d & r, "or": d | r, "eor": d ^ r}[op])
        elif op in IMMEDIATE:
            d, k = self.r[f[0]], f[1]
            if op == "cpi":
                self.sub(d, k, 0, False)
            elif op == "subi":
                self.r[f[0]] = self.sub(d, k, 0, False)
            elif op == "sbci":
                self.r[f[0]] = self.sub(d, k, self.s[0], True)
            elif op == "ldi":
                self.r[f[0]] = k
            else:
                self.r[f[0]] = self.logic(d & k if op == "andi" else d | k)
        elif op in UNARY:
            d, c = self.r[f[0]], self.s[0]
            if op == "com":
                res = self.logic(~d & 0xFF)
                self.flags(C=1)
            elif op == "neg":
                res = -d & 0xFF
                self.signs(res, int(res == 0x80))
                self.flags(C=int(res != 0), H=(res >> 3 | d >> 3))
            elif op == "swap":
                res = d << 4 & 0xF0 | d >> 4
            elif op in ("inc", "dec"):
                res = (d + (1 if op == "inc" else -1)) & 0xFF
                self.signs(res, int(res == (0x80 if op == "inc" else 0x7F)))
            else:
                res = d >> 1 | {"asr": d & 0x80, "lsr": 0, "ror": c << 7}[op]
                self.signs(res, (res >> 7) ^ (d & 1))
                self.flags(C=d & 1)
            self.r[f[0]] = res
        elif op == "movw":
            self.set_word(f[0], self.word(f[1]))
        elif op in ("muls", "mulsu", "fmul", "fmuls", "fmulsu"):
            a, b = self.r[f[0]], self.r[f[1]]
            a = a if op == "fmul" else signed(a)
            b = signed(b) if op in ("muls", "fmuls") else b
            self.multiply(a, b, 1 if op.startswith("f") else 0)
        elif op in ("adiw", "sbiw"):
            d, k = self.word(f[0]), f[1]
            res = (d + k if op == "adiw" else d - k) & 0xFFFF
            h, t = d >> 15, res >> 15
            v = (~h & t if op == "adiw" else h & ~t) & 1
            n = t
            self.flags(N=n, V=v, S=n ^ v, Z=int(res == 0), C=(~t & h if op == "adiw" else t & ~h) & 1)
            self.set_word(f[0], res)
        elif op == "ldd":
            self.r[f[2]] = self.read(self.word(pair_of[f[0]]) + f[1])
        elif op == "std":
            self.write(self.word(pair_of[f[0]]) + f[1], self.r[f[2]])
        elif op == "lds":
            self.r[f[0]] = self.read(f[1])
        elif op == "sts":
            self.write(f[0], self.r[f[1]])
        elif op in ("ld", "st"):
            pointer = f[1] if op == "ld" else f[0]
            pair = pair_of[pointer.strip("+-")]
            byte = self.r[f[1]] if op == "st" else None
            address = self.word(pair) - (1 if pointer[0] == "-" else 0)
            if op == "ld":
                byte = self.read(address)
            if pointer[0] == "-":
                self.set_word(pair, address)
            if pointer[-1] == "+":
                self.set_word(pair, address + 1)
            if op == "ld":
                self.r[f[0]] = byte
            else:
                self.write(address, byte)
        elif op in ("lpm", "lpm+", "lpm0"):
            z = self.word(30)
            byte = flash[z // 2] >> 8 * (z % 2) & 0xFF if z < 0x8000 else self.inputs[0]
            if op == "lpm+":
                self.set_word(30, z + 1)
            self.r[f[0] if f else 0] = byte
        elif op == "pop":
            self.r[f[0]] = self.pop(self.inputs[0])
        elif op == "push":
            self.push(self.r[f[0]])
        elif op in ("bset", "bclr"):
            self.s[f[0]] = int(op == "bset")
            delay = op == "bset" and f[0] == 7 and not was_on
        elif op == "ijmp":
            self.pc = self.word(30)
        elif op in ("icall", "call", "rcall"):
            back = self.pc % 16384
            self.push(back & 0xFF)
            self.push(back >> 8)
            self.pc = self.word(30) if op == "icall" else f[0] if op == "call" else self.pc + f[0]
        elif op in ("ret", "reti"):
            high = self.pop(self.inputs[0])
            self.pc = high << 8 | self.pop(self.inputs[1])
            if op == "reti":
                self.s[7], delay = 1, True
        elif op == "jmp":
            self.pc = f[0]
        elif op == "rjmp":
            self.pc += f[0]
        elif op in ("brbs", "brbc"):
            if self.s[f[0]] == int(op == "brbs"):
                self.pc += f[1]
        elif op in ("sbi", "cbi"):
            a = f[0] + 0x20
            if HELD.get(a, 0) >> f[1] & 1:
                self.held[a] = self.held[a] & ~(1 << f[1]) | int(op == "sbi") << f[1]
        elif op in ("sbis", "sbic"):
            self.skip(program, self.read(f[0] + 0x20) >> f[1] & 1 == int(op == "sbis"))
        elif op == "in":
            self.r[f[0]] = self.read(f[1] + 0x20)
        elif op == "out":
            self.write(f[0] + 0x20, self.r[f[1]])
            delay = f[0] == 0x3F and not was_on and self.s[7] == 1
        elif op == "bld":
            self.r[f[0]] = self.r[f[0]] & ~(1 << f[1]) | self.s[6] << f[1]
        elif op == "bst":
            self.s[6] = self.r[f[0]] >> f[1] & 1
        elif op in ("sbrs", "sbrc"):
            self.skip(program, self.r[f[0]] >> f[1] & 1 == int(op == "sbrs"))
        else:
            assert op in PLAIN, op
        self.pc %= 16384
        self.delay = delay
        if not self.open:
            self.live = {a for a in self.live if a > self.sp}
            self.depth = max(self.depth, RAMEND - self.sp)


def initial_registers(pointer):
    return [(37 * i + 11) % 256 for i in range(26)] + [pointer & 0xFF, pointer >> 8] * 3


def initial_byte(a):
    return (5 * a + a // 256) % 256


P = 0x0412


def register_rows():
    """Instructions that set registers and flags alone: a in r16 and r24, b in r17 and r25, and SREG before."""
    for op in BINARY:
        if op != "cpse":
            for a, b, s in ((0x80, 0x01, 0x00), (0x7F, 0xFF, 0xFF), (0x5A, 0x5A, 0x02), (0x00, 0xFF, 0x01)):
                yield (op, 16, 17), a, b, s
            yield (op, 17, 17), 0x12, 0x80, 0x00
    for op in IMMEDIATE:
        for a, k, s in ((0x80, 0x01, 0x00), (0x5A, 0x5A, 0xFF), (0x00, 0xFF, 0x03)):
            yield (op, 16, k), a, 0, s
    for op in UNARY:
        for a in (0x00, 0x01, 0x7F, 0x80, 0xFF):
            yield (op, 16), a, 0, 0x00
        yield (op, 16), 0x5A, 0, 0xFF
    for op in ("muls", "mulsu", "fmul", "fmuls", "fmulsu"):
        for a, b in ((0x80, 0x80), (0xFF, 0x7F), (0x00, 0x12)):
            yield (op, 16, 17), a, b, 0x00
        yield (op, 17, 16), 0xC0, 0xFF, 0xFF
    for op in ("adiw", "sbiw"):
        for a, b in ((0x00, 0x00), (0xE0, 0x7F), (0x05, 0x80), (0xFF, 0xFF)):
            yield (op, 24, 33), a, b, 0x00
        yield (op, 24, 0), 0x00, 0x80, 0xFF
    for i in range(8):
        for op in ("bset", "bclr"):
            yield (op, i), 0, 0, 0x00
            yield (op, i), 0, 0, 0xFF
    for bit in (0, 7):
        yield ("bld", 16, bit), 0x5A, 0, 0x40
        yield ("bld", 16, bit), 0xA5, 0, 0xBF
        yield ("bst", 16, bit), 0x80, 0, 0x00
        yield ("bst", 16, bit), 0x01, 0, 0xFF
    for op in ("nop", "sleep", "break", "wdr"):
        yield (op,), 0, 0, 0x41
    yield ("movw", 2, 16), 0x12, 0x34, 0x00
    for port in (0x3D, 0x3E, 0x3F, 0x1D, 0x00):
        yield ("in", 16, port), 0x12, 0, 0x41


def memory_rows():
    """Instructions that load and store, and the pointer in X, Y and Z."""
    for base in "YZ":
        for q in (0, 37, 63):
            yield P, ("ldd", base, q, 9)
            yield P, ("std", base, q, 9)
    for a in (0x0345, 0x0005, 0x005D, 0x005E, 0x00FF, 0x0900):
        yield P, ("lds", 6, a)
    for a in (0x0100, 0x08FF, 0x0011, 0x00C1, 0x0900, 0x0040):
        yield P, ("sts", a, 6)
    for pointer in POINTERS:
        yield P, ("ld", 8, pointer)
        yield P, ("st", pointer, 8)
        yield 0x0000, ("ld", 8, pointer)
        yield 0xFFFF, ("st", pointer, 8)
    # a store onto a pointer's own registers, by itself and by another pointer
    yield 0x001A, ("st", "X+", 9)
    yield 0x001B, ("st", "X+", 9)
    yield 0x001A, ("st", "Y+", 26)
    yield 0x001C, ("st", "-Z", 28)
    for z in (0x0000, 0x0001, 0x7FFF, 0x8000, 0xFFFF):
        yield z, ("lpm", 3)
        yield z, ("lpm+", 3)
        yield z, ("lpm0",)


def flow_rows():
    """Programs that end with a jump, a call, a return, a branch or a skip: the pointer, and the word at 0x3FFF."""
    yield 0x1234, [("ijmp",)], None
    yield 0xFEDC, [("icall",)], None
    yield P, [("rcall", 0), ("ret",)], None
    yield P, [("ret",)], None
    yield P, [("reti",)], None
    yield P, [("push", 12), ("push", 25), ("ret",)], None
    yield P, [("jmp", 0x2345)], None
    yield P, [("call", 0x2345)], None
    for op in ("rjmp", "rcall"):
        for k in (0, 2047, -1, -2048):
            yield P, [(op, k)], None
    for i in (0, 7):
        for op in ("brbs", "brbc"):
            for k in (63, -64):
                yield P, [(op, i, k)], None
                yield P, [("bset", i), (op, i, k)], None
    for b in (0, 1):
        for op in ("sbrc", "sbrs"):
            yield P, [(op, 22, b), ("nop",)], None
            yield P, [(op, 22, b), ("jmp", 7)], None
    for op in ("sbic", "sbis"):
        for b in (0, 1):
            yield P, [(op, 3, b), ("lds", 1, 0x0102)], None
            yield P, [("sbi", 0x1D, 1), (op, 0x1D, b)], None
    for long in (("lds", 1, 0x0102), ("sts", 0x0102, 1), ("jmp", 7), ("call", 7)):
        yield P, [("cpse", 5, 5), long], None
    yield P, [("cpse", 5, 5), ("nop",)], None
    yield P, [("cpse", 5, 6), ("nop",)], None
    # at the last word of flash
    for op in (("nop",), ("rjmp", 4), ("rcall", 4), ("brbc", 0, 5), ("lds", 5, 0x940C)):
        yield P, [("jmp", 0x3FFF)], op
    for op in ("sbrc", "sbrs"):
        yield P, [("jmp", 0x3FFF)], (op, 22, 0)


def encode(ops, last, most):
    words, program = [], {}
    for op in ops:
        program[len(words)] = op
        words += assemble(*op)
    assert len(words) <= most, ops
    flash = words + [0xFFFF] * (16384 - len(words))
    if last:
        program[0x3FFF] = last
        flash[0x3FFF] = assemble(*last)[0]
    return words + [0xFFFF] * (most - len(words)), program, flash


def changes(before, m, most):
    registers = [(i, b) for i, (a, b) in enumerate(zip(before, m.r)) if a != b]
    memory = [(a, m.ram[a]) for a in sorted(m.ram) if m.ram[a] != initial_byte(a)]
    assert len(registers) <= most, registers
    return ", ".join(["(%d, 0x%02X)" % x for x in registers] + ["N"] * (most - len(registers))), memory


def hexes(xs):
    return ", ".join(word(x) for x in xs)


def word(x):
    return "E" if x == 0xFFFF else "0x%04X" % x


def table(name, told, kind, about, lines):
    print()
    for line in about.split("\n"):
        print("/// %s" % line)
    print("pub static %s: [(&str, &[%s]); 1] = [(\n    \"%s\",\n    &[" % (name, kind, told))
    for line in lines:
        print("        %s(%s)," % (kind, line))
    print("    ],\n)];")


HEAD = """//! Programs at word 0, and the machine after them. `tests/tables/machine_rows.py` computed these rows, and not
//! this crate, by a model of its own, written from the manual's formulas (DS40002198) as remembered and not copied from it.

use super::{FlowRow, MemoryRow, RegisterRow};

/// An erased word.
const E: u16 = 0xFFFF;

/// No register.
const N: (u8, u8) = (32, 0);

/// No byte of SRAM.
const M: (u16, u8) = (0, 0);

/// `out 0x3F, r18`.
const S: u16 = 0xBF2F;"""


def main():
    print(HEAD)
    inputs = (0x96, 0x3C)
    lines = []
    for op, a, b, before in register_rows():
        m = Machine(P, inputs)
        m.r[16], m.r[17], m.r[18], m.r[24], m.r[25] = a, b, before, a, b
        m.s = [before >> i & 1 for i in range(8)]
        start = list(m.r)
        m.step({0: op}, [])
        registers, memory = changes(start, m, 2)
        assert (m.pc, m.sp, memory) == (1, RAMEND, [])
        lines.append("[S, 0x%04X], 0x%02X, 0x%02X, 0x%02X, 0x%02X, &[%s]" % (assemble(*op)[0], a, b, before, m.sreg(), registers))
    table("REGISTERS", "registers and flags", "RegisterRow", "The words, a in r16 and r24, b in r17 and r25, SREG before and after, and the registers that changed.", lines)
    lines = []
    for pointer, op in memory_rows():
        words, program, flash = encode([op], None, 2)
        m = Machine(pointer, inputs)
        m.step(program, flash)
        registers, memory = changes(initial_registers(pointer), m, 3)
        assert len(memory) <= 1 and (m.sp, m.sreg()) == (RAMEND, 0)
        byte = "(0x%04X, 0x%02X)" % memory[0] if memory else "M"
        lines.append("0x%04X, [%s], &[%s], %s" % (pointer, hexes(words), registers, byte))
    table("MEMORY", "load or store", "MemoryRow", "The pointer in X, Y and Z, an instruction's words, the registers that changed, and the byte of SRAM that did.", lines)
    lines = []
    for pointer, ops, last in flow_rows():
        words, program, flash = encode(ops, last, 3)
        steps = 2 if last else len(ops) if ops[0][0] not in ("sbrc", "sbrs", "sbic", "sbis", "cpse") else 1
        m = Machine(pointer, inputs)
        for _ in range(steps):
            m.step(program, flash)
        assert m.sp in (RAMEND, RAMEND - 2, RAMEND + 2)
        back = m.ram[m.sp + 1] << 8 | m.ram[m.sp + 2] if m.sp < RAMEND else 0xFFFF
        lines.append("0x%04X, [%s], %s, %d, [0x%04X, 0x%04X], %s" % (
            pointer, hexes(words), word(flash[0x3FFF]), steps, m.pc, m.sp, word(back)))
    table("FLOW", "jump, call, return, branch or skip", "FlowRow",
          "The pointer in X, Y and Z, the words, the last word of flash, how many instructions are executed, the program\ncounter and the stack pointer, and the word on the stack.", lines)


if __name__ == "__main__":
    main()
