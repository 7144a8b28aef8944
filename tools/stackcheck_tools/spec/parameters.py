"""Pushes of parameters: what a function pushes in front of a call and gives back behind it. Such a byte is an object of the called
function, which may write it."""

from __future__ import annotations

from typing import Iterator, List, NamedTuple, Optional, Set, Tuple

from stackcheck_tools.firmware import opcodes
from stackcheck_tools.firmware.elf import Elf, Symbol
from stackcheck_tools.firmware.library_names import is_library
from stackcheck_tools.spec.scratch import is_push

MOST_STATES = 20_000  # words with what is pushed there, of one function
IN_SPL, IN_SPL_R28, OUT_SPL, POP = 0xB60D, 0xB7CD, 0xBE0D, 0x900F
RETURNS = (0x9508, 0x9518)
NEAR = 8  # instructions between a read of the stack pointer and its write
R0, NONE = 0, -1  # the register that holds nothing for long; no register


class Pushed(NamedTuple):
    """A byte that a function has on the stack: the word of its `push` or of the `rcall` that makes room for it, the register, and whether a
    call came since."""

    word: int
    register: int
    is_passed: bool


Stack = Tuple[Optional[Pushed], ...]  # None: the frame pointer was read there


def makes_room(elf: Elf, word: int) -> bool:
    """`rcall .+0`, which the compiler has for two or three pushes."""
    return opcodes.call_target(elf, word) == word + 1


def given_back(elf: Elf, word: int) -> int:
    """How many bytes the write of SPL at a word gives back: what `adiw`, or `subi` with `sbci`, has added to the stack pointer that was
    read just before; 0 of another write."""
    register, count = opcodes.destination(elf.word(word)), 0
    for at in range(word - 1, max(word - NEAR, 0), -1):
        opcode = elf.word(at)
        if opcode & 0xFE0F == IN_SPL:
            return count if opcodes.destination(opcode) == register else 0
        if opcode & 0xFF00 == 0x9600 and 24 + 2 * (opcode >> 4 & 3) == register:
            count += opcode & 15 | opcode >> 2 & 0x30
        elif opcode & 0xF000 == 0x5000 and 16 + (opcode >> 4 & 15) == register:
            count += -(opcode & 15 | opcode >> 4 & 0xF0) % 256
    return 0


class Walk:
    """The ways through a function, with what it has pushed at each word."""

    def __init__(self, elf: Elf, symbol: Symbol) -> None:
        self.elf = elf
        self.found: Set[int] = set()
        begin, end = elf.extent(symbol)
        self.words = range(begin // 2, (end + 1) // 2)
        self.seen: Set[Tuple[int, Stack]] = set()
        self.left: List[Tuple[int, Stack]] = [(begin // 2, ())]

    def run(self) -> Set[int]:
        """The words of the pushes of parameters."""
        while self.left and len(self.seen) < MOST_STATES:
            state = self.left.pop()
            if state not in self.seen and state[0] in self.words:
                self.seen.add(state)
                self.step(*state)
        return self.found

    def step(self, word: int, held: Stack) -> None:
        opcode = self.elf.word(word)
        if opcode in RETURNS:
            return
        if is_push(opcode):
            held = (*held, Pushed(word, opcodes.destination(opcode), False))
        elif makes_room(self.elf, word):
            held = held + (Pushed(word, NONE, False),) * self.elf.chip.back
        elif opcode & 0xFE0F == POP:
            held = self.popped(held, opcodes.destination(opcode))
        elif opcode == IN_SPL_R28:
            held = (*held, None)
        elif opcode & 0xFE0F == OUT_SPL:
            held = self.moved(word, held)
        elif opcodes.is_call(opcode) or opcodes.call_target(self.elf, word) is not None:
            held = tuple(it and it._replace(is_passed=True) for it in held)
        self.left += [(to, held) for to in opcodes.following(self.elf, word)]

    def popped(self, held: Stack, register: int) -> Stack:
        """Behind a `pop`: the compiler pops a parameter into r0, and a register that it kept into itself. What was pushed before the frame
        pointer was read is the frame."""
        if held[-1:] == (None,):
            return (*held[:-2], None)
        if held and (last := held[-1]) and register == R0 != last.register:
            self.give_back([last])
        return held[:-1]

    def give_back(self, bytes_of: List[Pushed]) -> None:
        """Notes those that were pushed, if a call came since all of them."""
        if all(it.is_passed for it in bytes_of):
            self.found |= {it.word for it in bytes_of if it.register != NONE}

    def moved(self, word: int, held: Stack) -> Stack:
        """Behind a write of SPL: by a sum, or by the frame pointer, which gives back all that was pushed since it was read."""
        count = given_back(self.elf, word)
        if opcodes.destination(self.elf.word(word)) == opcodes.FRAME_LOW:
            if None not in held:
                return held
            count = held[::-1].index(None)
        given = held[len(held) - count:] if count else ()
        self.give_back([it for it in given if it])
        return held[:len(held) - count] if count <= len(held) else ()


def pushes(elf: Elf) -> Iterator[int]:
    """Yields the words of the pushes of parameters, in ascending order; none of the compiler's own library, which is written by hand."""
    functions = {it.address: it for it in elf.code if it.is_function and not is_library(it.name)}
    for _, symbol in sorted(functions.items()):
        yield from sorted(Walk(elf, symbol).run())
