"""From where the bytes in registers were loaded, along all ways within one function: what a pair points to, two bytes that are neighbours
in memory, and what a comparison leaves of a pair. A call changes what a callee may change. """

from __future__ import annotations

import functools
from typing import AbstractSet, Dict, FrozenSet, Iterator, List, NamedTuple, Optional, Set, Tuple

from stackcheck_tools.dataflow.worklist import Worklist
from stackcheck_tools.firmware import candidates, effects, functions, opcodes, records, switches
from stackcheck_tools.firmware.effects import X, Y, Z, ZERO
from stackcheck_tools.firmware.elf import Elf, Symbol

Tag = Tuple[int, int]
GIVEN, CONSTANT, OWN, HALF, LOW, MEMORY, FLASH, FIXED, STACK = range(9)
TAGGED = (OWN, MEMORY, FLASH, FIXED)
UNTAGGED: Tag = (-1, -1)
JOINT = 100  # from here on registers of tags are of joints
BASES = 1000  # and from here on of what no register holds
OUTSIDE = -1  # from where a function is entered
MOST_VISITS = 60  # of a word, behind which nothing is told there
CHANGED = (0, *range(18, 28), Z, Z + 1)  # registers that a call may change
BY_TABLE = (0, Z, Z + 1)  # those that `__tablejump2__` does
SPL, SPH = 0x5D, 0x5E
RETURNS = (0x9508, 0x9518)
SAVES, RESTORES, TABLES = "__prologue_saves__", "__epilogue_restores__", "__tablejump"


class Byte(NamedTuple):
    """What a byte is, by its kind:
    GIVEN     what register `number` held at the function's begin
    CONSTANT  `number`
    OWN       a value of its own
    HALF      the lower (`part` 0) or higher (1) byte of `pair` plus `number`
    LOW       the lower byte of the same, which alone was moved by `part` so far
    MEMORY    the byte of memory to which `pair` plus `number` points
    FLASH     the same, of flash
    FIXED     the byte of memory at address `number`
    STACK     the lower (`part` 0) or higher byte of the stack pointer at the function's begin, or at another place (`tag`)
    `tag` says what gave the value: the word of an instruction and a register, or the same of a joint of ways, whose registers count from
    JOINT. Two bytes with one tag, or told by bytes with one, come of one time that the instruction ran. """

    kind: int
    number: int = 0
    pair: Optional[Tuple[Byte, Byte]] = None
    part: int = 0
    tag: Tag = UNTAGGED


Pair = Tuple[Byte, Byte]
Spans = Tuple[Tuple[Pair, int, int], ...]
FRAME: Pair = (Byte(STACK), Byte(STACK, part=1))
NOWHERE: Pair = (Byte(CONSTANT), Byte(CONSTANT))  # the base of pairs that are constants


class State(NamedTuple):
    """The bytes of the registers; how many bytes were pushed since the function's begin (None: not known), and which; the least and the
    greatest number that pairs may be on this way, by comparisons."""

    bytes: Tuple[Byte, ...]
    depth: Optional[int]
    pushed: Tuple[Byte, ...]
    spans: Spans


def signed(number: int) -> int:
    return (number + 0x8000) % 0x10000 - 0x8000


def half(pair: Pair, more: int, which: int) -> Byte:
    """A byte of a pair plus a number."""
    if pair == NOWHERE:
        return Byte(CONSTANT, more >> 8 * which & 0xFF)
    return Byte(HALF, more, pair, which) if more else pair[which]


def own(word: int, register: int) -> Byte:
    return Byte(OWN, tag=(word, register))


def pair_of(low: Byte, high: Byte) -> Tuple[Pair, int]:
    """The pair from which two bytes are made, and what was added to it."""
    if low.kind == high.kind == HALF and low.pair is not None and low[1:3] == high[1:3] and (low.part, high.part) == (0, 1):
        return low.pair, low.number
    if low.kind == high.kind == CONSTANT:
        return NOWHERE, low.number | high.number << 8
    return (low, high), 0


def is_of_frame(byte: Byte) -> bool:
    """Whether a byte is made of the stack pointer by constants."""
    return byte.kind == STACK or byte.kind in (HALF, LOW) and byte.pair is not None and is_frame(byte.pair)


def is_frame(pair: Pair) -> bool:
    """Whether a pair is made of the stack pointer."""
    return pair[0].kind == STACK


def are_halves(low: Byte, high: Byte) -> bool:
    """Whether two bytes lie beside each other in memory."""
    return low.kind == high.kind and low.kind in (MEMORY, FLASH, FIXED) and low.pair == high.pair and low.number + 1 == high.number


def held(byte: Byte, tags: AbstractSet[Tag]) -> bool:
    """Whether a byte has one of these tags, or is told by one that has."""
    return byte.tag in tags or byte.pair is not None and holds(byte.pair, tags)


def holds(pair: Pair, tags: AbstractSet[Tag]) -> bool:
    return held(pair[0], tags) or held(pair[1], tags)


class Function:
    """What is known before each word of a function, and on the ways from its branches. `is_whole`: no way leads into the middle of an
    instruction."""

    def __init__(self, elf: Elf, symbol: Symbol) -> None:
        self.elf, self.symbol = elf, symbol
        self.begin, self.end = (it // 2 for it in elf.extent(symbol))
        self.words = {word for word, _ in opcodes.words_of(elf, symbol)}
        self.is_whole = True
        self.has_high, self.return_bytes = elf.chip.has_sph, 3 if elf.chip.words > 0x10000 else 2
        self.before: Dict[int, State] = {}
        self.from_words: Dict[int, Dict[int, State]] = {}
        self.visits: Dict[int, int] = {}
        self.left: Worklist[int] = Worklist()
        self.labels: Optional[Set[int]] = None
        self.naming: Set[int] = set()  # words that have given values of their own
        is_handler = self.begin in functions.handlers(elf)
        first = tuple(Byte(CONSTANT) if it == ZERO and not is_handler else Byte(GIVEN, it) for it in range(32))
        self.enter(OUTSIDE, self.begin, State(first, 0, (), ()))
        for word in sorted(entered_inside(elf).get(symbol.address, ())):
            self.enter(OUTSIDE, word, nothing(word))
        self.run()

    def enter(self, source: int, word: int, state: State) -> None:
        """Goes on at a word with what the way from another word knows."""
        if not self.begin <= word < self.end:
            return
        if word not in self.words:
            self.is_whole = False
            return
        ways = self.from_words.setdefault(word, {})
        if ways.get(source) != state:
            ways[source] = state
            self.left.push(word)

    def run(self) -> None:
        for word in self.left:
            ways = list(self.from_words[word].values())
            self.visits[word] = self.visits.get(word, 0) + 1
            state = ways[0] if len(ways) == 1 else nothing(word) if self.visits[word] > MOST_VISITS else joined(ways, word)
            if state != self.before.get(word):
                self.before[word] = state
                self.follow(word, state)

    def follow(self, word: int, state: State) -> None:
        """Goes on at the words that may follow one."""
        elf, opcode = self.elf, self.elf.word(word)
        after = word + opcodes.length(opcode)
        if opcode in RETURNS:
            return
        if opcodes.is_jump(opcode):
            for label in self.to_labels(word):
                self.enter(word, label, state)
        elif (to := opcodes.jump_target(elf, word)) is not None:
            self.jump(word, to, after, state)
        elif (called := opcodes.call_target(elf, word)) == after:
            room = None if state.depth is None else state.depth + self.return_bytes
            made = [own(word, -1 - it) for it in range(self.return_bytes)]
            self.enter(word, after, state._replace(depth=room, pushed=(*state.pushed, *made)))
        elif called is not None or opcodes.is_call(opcode):
            self.enter(word, after, self.fresh(word, state, CHANGED))
        else:
            moved = self.behind(word, opcode, state)
            for number, way in enumerate(opcodes.following(elf, word)):
                self.enter(word, way, moved if opcode & 0xF800 != 0xF000 else self.compared(word, opcode, moved, number == 1))

    def to_labels(self, word: int) -> AbstractSet[int]:
        """The words of this function to which a jump through a pointer may lead."""
        if table := candidates.table_of_jumps(self.elf, word):
            return table
        if self.labels is None:
            has_records = records.has_records(self.elf)
            known = records.words(self.elf) | records.differences(self.elf) if has_records else switches.numbers(self.elf)
            self.labels = (self.words & known) - {self.begin}
        return self.labels

    def jump(self, word: int, to: int, after: int, state: State) -> None:
        symbol = functions.at(self.elf, 2 * to)
        name = symbol.name if symbol else ""
        if name == SAVES:
            low, high = state.bytes[X], state.bytes[X + 1]
            size = low.number | high.number << 8 if low.kind == high.kind == CONSTANT else None
            moved = self.fresh(word, state, CHANGED)
            moved = put(moved, Y, unknown_frame(word)) if size is None else with_pair(moved, Y, FRAME, -size)
            self.enter(word, after, moved._replace(depth=size, pushed=()))
        elif name.startswith(TABLES) and not self.begin <= to < self.end:
            moved = self.fresh(word, state, BY_TABLE)
            for it in self.to_labels(word):
                self.enter(word, it, moved)
        else:
            self.enter(word, to, state)

    def fresh(self, word: int, state: State, registers: Tuple[int, ...]) -> State:
        """The state in which a word has given these registers values of their own."""
        return self.given(word, state, {it: own(word, it) for it in registers})

    def given(self, word: int, state: State, made: Dict[int, Byte]) -> State:
        """The state in which a word has given registers these values. What was told by those that the same word gave before, in a loop,
        isn't known any more."""
        if word in self.naming:
            state = without(state, word, {(word, it) for it in made})
        self.naming.add(word)
        values = list(state.bytes)
        for it, byte in made.items():
            values[it] = byte
        return State(tuple(values), state.depth, state.pushed, state.spans)

    def behind(self, word: int, opcode: int, state: State) -> State:
        """The state behind an instruction that is no jump and no call."""
        effect = effects.of(opcode, self.elf.word(word + 1) if opcodes.length(opcode) == 2 else 0)
        if effect is effects.NOTHING:
            return state
        if isinstance(effect, effects.Copy):
            return put(state, effect.to, state.bytes[effect.of:effect.of + effect.size])
        if isinstance(effect, effects.Constant):
            return put(state, effect.to, (Byte(CONSTANT, effect.byte),))
        if isinstance(effect, effects.Load):
            return self.load(word, effect, state)
        if isinstance(effect, effects.LoadAt):
            found = self.from_stack(state, word, effect.to, effect.address)
            return found or self.given(word, state, {effect.to: Byte(FIXED, effect.address, tag=(word, effect.to))})
        if isinstance(effect, effects.Store):
            return self.step(state, effect.pair, effect.step)
        if isinstance(effect, effects.LoadFlash):
            pair, more = pair_of(state.bytes[Z], state.bytes[Z + 1])
            return self.given(word, self.step(state, Z, effect.step), {effect.to: Byte(FLASH, more, pair, tag=(word, effect.to))})
        if isinstance(effect, effects.Step):
            return self.step(state, effect.pair, effect.by)
        if isinstance(effect, effects.Sum):
            return self.sum(state, effect) or self.fresh(word, state, (effect.to,))
        return self.with_stack(word, effect, state)

    def load(self, word: int, effect: effects.Load, state: State) -> State:
        pair, more = pair_of(state.bytes[effect.pair], state.bytes[effect.pair + 1])
        if not self.has_high and state.bytes[effect.pair].kind == STACK:
            pair, more = FRAME, 0
        moved, tag, more = self.step(state, effect.pair, effect.step), (word, effect.to), more + effect.more
        return self.given(word, moved, {effect.to: Byte(FIXED, more & 0xFFFF, tag=tag) if pair == NOWHERE else
                                        Byte(MEMORY, signed(more), pair, tag=tag)})

    def step(self, state: State, register: int, by: int) -> State:
        """The state behind a move of a pair."""
        if not by:
            return state
        pair, more = pair_of(state.bytes[register], state.bytes[register + 1])
        return with_pair(state, register, pair, signed(more + by) if pair != NOWHERE else more + by & 0xFFFF)

    def sum(self, state: State, effect: effects.Sum) -> Optional[State]:
        """The state behind a sum or a difference; None where it isn't followed."""
        to, values = effect.to, state.bytes
        other = Byte(CONSTANT, effect.byte) if effect.of is None else values[effect.of]
        if other.kind != CONSTANT and effect.of is not None and not effect.is_less and values[to].kind == CONSTANT:
            to, other = effect.of, values[to]  # a constant to which a pair is added
        if other.kind != CONSTANT:
            return None
        by = -other.number if effect.is_less else other.number
        if effect.carries:
            return self.high_sum(state, effect.to, values[to], by)
        if values[to].kind == CONSTANT:
            return put(state, effect.to, (Byte(CONSTANT, values[to].number + by & 0xFF),)) if effect.of is None else None
        if to % 2 or not self.has_high and is_of_frame(values[to]):
            return None
        pair, more = pair_of(values[to], values[to + 1])
        return put(state, effect.to, (Byte(LOW, more, pair, by),))

    def high_sum(self, state: State, to: int, high: Byte, by: int) -> Optional[State]:
        """The state behind the higher half of a sum whose lower half stands below."""
        low = state.bytes[to - 1]
        if to % 2 == 0 or low.kind != LOW or low.pair is None or half(low.pair, low.number, 1) != high:
            return None
        return with_pair(state, to - 1, low.pair, signed(low.number + low.part + 256 * by))

    def from_stack(self, state: State, word: int, to: int, address: int) -> Optional[State]:
        """The state behind a read of the stack pointer; None of another address."""
        if address not in (SPL, SPH):
            return None
        which = int(address == SPH)
        return put(state, to, (half(FRAME, -state.depth, which) if state.depth is not None else unknown_frame(word - which)[which],))

    def with_stack(self, word: int, effect: effects.Effect, state: State) -> State:
        if isinstance(effect, effects.Push):
            return state._replace(depth=None if state.depth is None else state.depth + 1, pushed=(*state.pushed, state.bytes[effect.of]))
        if isinstance(effect, effects.Pop):
            moved = state._replace(depth=None if state.depth is None else state.depth - 1, pushed=state.pushed[:-1])
            return put(moved, effect.to, (state.pushed[-1],)) if state.pushed else self.fresh(word, moved, (effect.to,))
        if isinstance(effect, effects.Output):
            return self.set_stack(word, state, state.bytes[effect.of]) if effect.address == SPL else state
        if isinstance(effect, effects.Input):
            if (found := self.from_stack(state, word, effect.to, effect.address)) is not None:
                return found
        return self.fresh(word, state, effects.written(effect))

    def set_stack(self, word: int, state: State, low: Byte) -> State:
        """The state behind a write of the stack pointer, by what its lower byte becomes."""
        depth = -low.number if low.kind == HALF and low.pair == FRAME else 0 if low == FRAME[0] else None
        if depth is None or len(state.pushed) != state.depth:
            return state._replace(depth=depth, pushed=())
        made = [own(word, -1 - it) for it in range(depth - len(state.pushed))]
        return state._replace(depth=depth, pushed=(*state.pushed[:max(depth, 0)], *made))

    def compared(self, word: int, opcode: int, state: State, is_taken: bool) -> State:
        """The state on a way from `brcs` or `brcc`, with what the comparison before leaves of a pair."""
        if opcode & 7 != 0:
            return state
        found = self.comparison(word)
        if found is None:
            return state
        (pair, more), limit = found
        is_below = is_taken == (opcode & 0x0400 == 0)  # the carry is 1
        least, greatest = (0, limit - 1) if is_below else (limit, 0xFFFF)
        least, greatest = least - more, greatest - more
        if least < 0 <= greatest or least > 0xFFFF or limit == 0:
            return state
        span = pair, least % 0x10000, greatest % 0x10000
        if span[1] > span[2]:
            return state
        others = tuple(it for it in state.spans if it[0] != pair)
        for _, low, high in (it for it in state.spans if it[0] == pair):
            span = pair, max(span[1], low), min(span[2], high)
        return state._replace(spans=(*others, span))

    def comparison(self, word: int) -> Optional[Tuple[Tuple[Pair, int], int]]:
        """The pair whose number is compared right before a branch, with what was added to it, and the number with which it is; None where
        it is something else."""
        last, first = self.elf.word(word - 1), self.elf.word(word - 2)
        if word - 1 not in self.before:
            return None
        step = effects.of(last, 0)
        if isinstance(step, effects.Step) and step.by < 0:
            values = self.before[word - 1].bytes
            return pair_of(values[step.pair], values[step.pair + 1]), -step.by
        if first & 0xF000 == 0x3000 and last & 0xFC00 == 0x0400 and word - 2 in self.before:
            values = self.before[word - 2].bytes
            low, high, other = 16 + (first >> 4 & 15), last >> 4 & 31, values[last & 15 | last >> 5 & 16]
            if high == low + 1 and other.kind == CONSTANT:
                return pair_of(values[low], values[high]), first & 15 | first >> 4 & 0xF0 | other.number << 8
        return None


def put(state: State, register: int, values: Tuple[Byte, ...]) -> State:
    """The state with other bytes in registers from one on."""
    return state._replace(bytes=(*state.bytes[:register], *values, *state.bytes[register + len(values):]))


def with_pair(state: State, register: int, pair: Pair, more: int) -> State:
    return put(state, register, (half(pair, more, 0), half(pair, more, 1)))


def unknown_frame(word: int) -> Pair:
    """The stack pointer at a place where it isn't known how many bytes were pushed."""
    return Byte(STACK, tag=(word, 0)), Byte(STACK, part=1, tag=(word, 0))


def without(state: State, word: int, tags: AbstractSet[Tag]) -> State:
    """The state in which nothing is told by values with these tags."""
    values = [own(word, 2 * JOINT + at) if held(byte, tags) else byte for at, byte in enumerate(state.bytes)]
    pushed = [own(word, -2 * JOINT - at) if held(byte, tags) else byte for at, byte in enumerate(state.pushed)]
    return State(tuple(values), state.depth, tuple(pushed), tuple(it for it in state.spans if not holds(it[0], tags)))


def nothing(word: int) -> State:
    """The state in which nothing is known but that each register has a value of its own."""
    return State(tuple(own(word, JOINT + it) for it in range(32)), None, (), ())


class Joint:
    """What holds on all ways that meet at a word. Registers that are equal on each way stay equal; a byte that was loaded on each way from
    the same place of what a pair points to, is loaded so."""

    def __init__(self, ways: List[State], word: int) -> None:
        self.word, self.ways = word, ways
        self.names: Dict[Tuple[Byte, ...], Byte] = {}

    def is_stale(self, byte: Byte, way: State) -> bool:
        """Whether a byte is told by what met here before, in a loop, and has changed since."""
        word, at = byte.tag
        if word == self.word and at >= JOINT:
            return at >= JOINT + len(way.bytes) or way.bytes[at - JOINT].tag != byte.tag
        return byte.pair is not None and self.is_any_stale(byte.pair, way)

    def is_any_stale(self, pair: Pair, way: State) -> bool:
        return self.is_stale(pair[0], way) or self.is_stale(pair[1], way)

    def meet(self, found: Tuple[Byte, ...], at: Optional[int] = None) -> Byte:
        """What a byte is that the ways tell so; `at`: the register that has it."""
        first = found[0]
        if found.count(first) == len(found) and not any(self.is_stale(first, way) for way in self.ways):
            return first
        if found not in self.names:
            self.names[found] = self.made(found, JOINT + (BASES + len(self.names) if at is None else at))
        return self.names[found]

    def made(self, found: Tuple[Byte, ...], at: int) -> Byte:
        first, tag = found[0], (self.word, at)
        if first.kind in (MEMORY, FLASH, FIXED) and all(it.kind == first.kind and it.number == first.number for it in found):
            pairs = [it.pair for it in found if it.pair is not None]
            pair = (self.meet(tuple([it[0] for it in pairs])), self.meet(tuple([it[1] for it in pairs]))) if pairs else None
            return Byte(first.kind, first.number, pair, tag=tag)
        if any(is_of_frame(it) for it in found):
            return Byte(STACK, part=at % 2, tag=(self.word, at - at % 2))
        return Byte(OWN, tag=tag)

    def spans(self) -> Iterator[Tuple[Pair, int, int]]:
        """Yields what comparisons leave of pairs on each way."""
        known = [{pair: (least, greatest) for pair, least, greatest in way.spans} for way in self.ways]
        for pair in known[0]:
            if all(pair in it for it in known) and not any(self.is_any_stale(pair, way) for way in self.ways):
                yield pair, min(it[pair][0] for it in known), max(it[pair][1] for it in known)

    def state(self) -> State:
        ways = self.ways
        values = tuple([self.meet(found, at) for at, found in enumerate(zip(*(way.bytes for way in ways)))])
        pushed: Tuple[Byte, ...] = ()
        if all(len(way.pushed) == len(ways[0].pushed) for way in ways):
            pushed = tuple([self.meet(found) for found in zip(*(way.pushed for way in ways))])
        depth = ways[0].depth if all(way.depth == ways[0].depth for way in ways) else None
        return State(values, depth, pushed, tuple(self.spans()) if ways[0].spans else ())


def joined(ways: List[State], word: int) -> State:
    return Joint(ways, word).state()


@functools.lru_cache(maxsize=None)
def entered_inside(elf: Elf) -> Dict[int, FrozenSet[int]]:
    """The words behind the begin of each function, by its address, that other code enters by calls and jumps that name them."""
    found: Dict[int, Set[int]] = {}
    for words in candidates.code(elf):
        for word, _ in words:
            to = opcodes.jump_target(elf, word)
            to = opcodes.call_target(elf, word) if to is None else to
            symbol = functions.at(elf, 2 * to) if to is not None else None
            if to is not None and symbol is not None and symbol.address != 2 * to and symbol is not functions.at(elf, 2 * word):
                found.setdefault(symbol.address, set()).add(to)
    return {at: frozenset(words) for at, words in found.items()}


@functools.lru_cache(maxsize=None)
def of_function(elf: Elf, address: int) -> Optional[Function]:
    """What is known in the function at a byte address; None where none is there."""
    symbol = functions.at(elf, address)
    return None if symbol is None else Function(elf, symbol)
