"""Where the pointers of stores and calls come from: from the address of an object or function, from memory that holds pointers, or from a
number. One worklist over the words that a certificate reaches: functions are followed by what they are given and give back, registers and
slots of frames along all ways, other memory by all that is written there. It is run several times: what is a pointer isn't known before all
that is written was seen, so the first run takes all objects to hold pointers, and each other one begins with the pointers that the one
before found. """

from __future__ import annotations

import functools
from typing import Dict, Iterator, List, NamedTuple, Optional, Protocol, Set, Tuple

from stackcheck_tools.dataflow import instructions, loaded, origin, virtual_calls
from stackcheck_tools.dataflow.addresses import Addresses
from stackcheck_tools.dataflow.instructions import Instruction
from stackcheck_tools.dataflow.memory import Memory, Place
from stackcheck_tools.dataflow.origin import (
    ALONE,
    CODE,
    FLASH,
    KEPT,
    MOVED,
    NUMBER,
    NUMBERS,
    OBJECTS,
    OF_CLASS,
    OTHER,
    POINTERS,
    TABLE,
    VIRTUAL,
    ZERO,
    constants,
    few,
)
from stackcheck_tools.dataflow.worklist import Worklist
from stackcheck_tools.firmware import effects, opcodes, start_up
from stackcheck_tools.firmware.devices import Device
from stackcheck_tools.firmware.effects import Y, Z
from stackcheck_tools.firmware.elf import Elf, Symbol

Key = Tuple[int, int]  # the word at which a function is entered, and one that is reached there
Registers = Tuple[int, ...]
KEPT_BY_CALLS = (*range(2, 18), 28, 29)
OWN = 24  # the pair in which a member function gets its object
NO_ARGUMENTS = (*range(2, 8), 28, 29)  # registers in which no caller leaves anything for a callee
# the lowest register in which avr-libc's functions of the heap get an argument, which keep in lower ones what they haven't set on each way
LOWEST = {"malloc": 24, "free": 24, "realloc": 22, "calloc": 22}
MOST_ROUNDS = 40
MORE_RUNS = 2  # behind the second one, while each finds that more memory holds nothing but numbers
SMALL = 32  # addresses below are of registers


class State(NamedTuple):
    """What the registers are made of, and the slots of the frame by their distance from where the stack pointer stood at the begin."""

    registers: Registers
    slots: Dict[int, int]


NOTHING = State((0,) * 32, {})


class Reached(Protocol):
    """The words that a certificate reaches, and the numbers that a pair of registers is known to be at one of them."""

    at: Dict[int, List[int]]

    def known(self, word: int, register: int) -> Set[int]: ...


class Targets(Protocol):
    """The lists of calls and jumps through pointers."""

    def of(self, site: int, kind: str) -> Set[int]: ...


class Firmware(NamedTuple):
    """What is followed, and what is known of it."""

    elf: Elf
    device: Device
    reached: Reached
    targets: Targets
    told: Addresses


def joined(ours: Registers, theirs: Registers) -> Registers:
    return ours if ours == theirs else tuple([few(a | b) if a != b else a for a, b in zip(ours, theirs)])


class Run:
    """One run of the worklist. `before`: what is known before each word, by the function that was entered; `ways`: the words from which
    each is reached; `leaving`: those at which a function ends; `returned`: what calls enter that return; `kept`: the words of stores that keep
    what may be a function read from a table of virtual functions, and where (None: not known)."""

    def __init__(self, firmware: Firmware, earlier: Optional["Run"] = None) -> None:
        self.elf, self.device, self.reached, self.targets, self.told = firmware
        self.memory: Memory = Memory(self.told, earlier.memory if earlier else None)
        self.hints: Dict[Key, Registers] = earlier.pointers() if earlier else {}
        self.before: Dict[Key, State] = {}
        self.exits: Dict[int, Registers] = {}
        self.callers: Dict[int, Set[Key]] = {}
        self.ways: Dict[Key, Set[Key]] = {}
        self.leaving: Dict[int, Set[Key]] = {}
        self.returned: Dict[Key, Set[int]] = {}
        self.kept: Set[Tuple[int, Optional[Place]]] = set()
        self.now: Optional[Key] = None  # the word that is followed
        self.readers: Dict[int, Set[Key]] = {}  # by what they read
        self.left: Worklist[Tuple[int, int]] = Worklist()  # ranks of functions, and words; what is called is followed before its caller goes on
        self.entries: List[int] = []
        self.ranks: Dict[int, int] = {}
        self.near: Dict[int, Optional[loaded.State]] = {}
        self.run()

    def pointers(self) -> Dict[Key, Registers]:
        """The pointers in the registers before each word."""
        return {key: tuple([it & POINTERS for it in state.registers]) for key, state in self.before.items()}

    def run(self) -> None:
        for word in (0, *(self.device.vector_word(it) for it in self.device.vectors)):
            if word in self.reached.at:
                self.enter((word, word), NOTHING)
        for _ in range(MOST_ROUNDS):
            for rank, word in self.left:
                self.now = self.entries[-rank], word
                self.step(self.now)
            self.now = None
            if self.memory.changed:
                again = set().union(*(self.readers.get(it, ()) for it in self.memory.changed))
                self.memory.changed.clear()
                for key in again:
                    self.push(key)
            elif not self.enter_missed():
                break

    def push(self, key: Key) -> None:
        """Lets a word be followed."""
        entry, word = key
        if entry not in self.ranks:
            self.ranks[entry] = -len(self.entries)
            self.entries.append(entry)
        self.left.push((self.ranks[entry], word))

    def enter_missed(self) -> bool:
        """Enters words of the certificate to which no way is known yet: begins of functions, which are entered by a list of constructors,
        with nothing; else as a jump through a pointer in the same function ends. Whether there was one."""
        seen = {word for _, word in self.before}
        jumps = [(key, state) for key, state in self.before.items() if opcodes.is_jump(self.elf.word(key[1]))]
        for word in sorted(set(self.reached.at) - seen):
            function = self.function(word)
            if function is None or function.name in (loaded.SAVES, loaded.RESTORES):
                continue
            if self.is_begin(word):
                self.enter((word, word), NOTHING)
                return True
            near = [(key[0], state) for key, state in jumps if function in (self.function(key[1]), self.function(key[0]))]
            for entry, state in near:
                self.enter((entry, word), state)
            if near:
                return True
        return False

    def enter(self, key: Key, state: State) -> None:
        """Goes on at a word with what a way there knows."""
        if self.now is not None:
            self.ways.setdefault(key, set()).add(self.now)
        held = self.before.get(key)
        if held is None:
            if key in self.hints:
                state = State(joined(state.registers, self.hints[key]), state.slots)
            self.before[key] = state
            self.push(key)
            return
        slots = held.slots
        if slots != state.slots:
            slots = {at: few(byte | state.slots[at]) for at, byte in slots.items() if at in state.slots}
        registers = joined(held.registers, state.registers)
        if registers != held.registers or slots != held.slots:
            self.before[key] = State(registers, slots)
            self.push(key)

    def leave(self, entry: int, registers: Registers) -> None:
        """Returns from a function."""
        if self.now is not None:
            self.leaving.setdefault(entry, set()).add(self.now)
        held = self.exits.get(entry)
        met = registers if held is None else joined(held, registers)
        if met != held:
            self.exits[entry] = met
            for it in self.callers.get(entry, ()):
                self.push(it)

    def enter_by_pointer(self, key: Key, to: int, after: Optional[int]) -> None:
        """Enters a function through a pointer. One that stands in tables of virtual functions alone is given an object that has such a table,
        and no number: the list of a call may have functions that it does not enter."""
        tables = self.told.tables_with(to)
        if not tables:
            self.call(key, to, after)
            return
        low, high = (self.with_tables(key, it, tables) for it in self.before[key].registers[OWN:OWN + 2])
        if low and high:
            self.call(key, to, after, (low, high))

    def with_tables(self, key: Key, byte: int, tables: int) -> int:
        """What a half of the pointer to an object with one of these tables may be made of; 0 if it is made of other objects alone. The first
        run waits until an object has a table."""
        is_first, found = self.memory.known is None, byte & ~NUMBERS or KEPT
        for number in origin.objects(byte) if not byte & MOVED else ():
            self.readers.setdefault(self.memory.whole(number), set()).add(key)
            held = self.memory.held(Place(number, 0, True)) & self.told.tables
            if (held or is_first) and not held & tables:
                found &= ~origin.object_bit(number)
        return found

    def call(self, key: Key, to: int, after: Optional[int], own: Optional[Tuple[int, int]] = None) -> None:
        """Enters a function, behind which a run goes on at a word, or returns itself. `own`: what its first argument is made of, where that
        isn't what the registers hold."""
        state = self.before[key]
        self.callers.setdefault(to, set()).add(key)
        arguments = Behind(self, key, instructions.at(self.elf, key[1])).arguments()
        arguments[OWN:OWN + 2] = own or arguments[OWN:OWN + 2]
        function = self.function(to)
        lowest = LOWEST.get(function.name, 0) if function is not None else 0
        for it in (*NO_ARGUMENTS, *range(8, lowest)):
            arguments[it] = 0
        if function is not None and not virtual_calls.CHANGED_ARGUMENTS.search(function.name):
            arguments = [it & ~OF_CLASS for it in arguments]  # no expression of the language is the pointer to a table
        self.enter((to, to), State(tuple(arguments), {}))
        given = self.exits.get(to)
        if given is None:
            return
        if after is None:
            self.leave(key[0], given)
            return
        values = list(given)
        for it in KEPT_BY_CALLS:
            values[it] = state.registers[it]
        values[effects.ZERO] = ZERO
        self.returned.setdefault(key, set()).add(to)
        self.enter((key[0], after), State(tuple(values), state.slots))

    def is_begin(self, word: int) -> bool:
        """Whether a function begins at a word."""
        function = self.function(word)
        return function is not None and function.address == 2 * word and (function.is_function or not function.name.startswith("."))

    def function(self, word: int) -> Optional[Symbol]:
        """The function in which a word lies."""
        return instructions.at(self.elf, word).function

    def nearby(self, word: int) -> Optional[loaded.State]:
        """From where the registers were loaded before a word, as its function tells."""
        if word not in self.near:
            own = self.function(word)
            function = loaded.of_function(self.elf, own.address) if own else None
            self.near[word] = function.before.get(word) if function and function.is_whole else None
        return self.near[word]

    def nearby_after(self, word: int) -> Optional[loaded.State]:
        """The same right behind the instruction at a word, which is no jump, before other ways join."""
        own = self.function(word)
        function = loaded.of_function(self.elf, own.address) if own else None
        return function.from_words.get(instructions.at(self.elf, word).after, {}).get(word) if function and function.is_whole else None

    def step(self, key: Key) -> None:
        """Follows the instruction at a word."""
        entry, word = key
        state, code = self.before[key], instructions.at(self.elf, word)
        if code.kind == instructions.OTHER:
            self.go_on(key, code)
        elif code.kind == instructions.RETURN:
            self.leave(entry, state.registers)
        elif code.kind == instructions.JUMP:
            self.jump(key, code)
        elif code.kind == instructions.CALL:
            self.call(key, code.to, code.after)
        elif code.kind == instructions.ROOM:
            self.enter((entry, code.after), state)
        elif code.kind == instructions.JUMP_THROUGH:
            self.jump_through(key, code)
        else:
            for to in self.targets.of(word, "jump") | self.reached.known(word, Z):
                self.enter_by_pointer(key, to, code.after)

    def jump_through(self, key: Key, code: Instruction) -> None:
        """Follows `ijmp` and `eijmp`: to words of the same function, or as a call at the end of it."""
        entry, word = key
        own = code.function
        is_helper = own is not None and own.name.startswith(loaded.TABLES)
        for to in self.targets.of(word, "jump") | self.reached.known(word, Z):
            if to not in self.reached.at:
                continue
            function = self.function(to)
            if is_helper and not self.is_begin(to):
                if function is self.function(entry):
                    self.enter((entry, to), self.before[key])
            elif function is own:
                self.enter((entry, to), self.before[key])
            else:
                self.enter_by_pointer(key, to, None)

    def jump(self, key: Key, code: Instruction) -> None:
        """Follows `jmp` and `rjmp`: in the same function, or to the begin of another one as a call at the end."""
        entry, to, function, state = key[0], code.to, self.function(code.to), self.before[key]
        name = function.name if function else ""
        if name == loaded.SAVES:
            values = list(state.registers)
            for it in (effects.X, effects.X + 1, Z, Z + 1):
                values[it] = NUMBER
            values[Y] = values[Y + 1] = self.memory.frame_bit(entry)
            self.enter((entry, code.after), State(tuple(values), {}))
        elif name == loaded.RESTORES:
            self.leave(entry, state.registers)
        elif not name.startswith(loaded.TABLES) and to != entry and self.is_begin(to) and code.function is not function:
            self.call(key, to, None)
        else:
            self.enter((entry, to), state)

    def go_on(self, key: Key, code: Instruction) -> None:
        """Follows what is no jump and no call."""
        moved = Behind(self, key, code).state()
        for number, to in enumerate(code.ways):
            state = moved
            if code.tested is not None and number == code.zero:  # the byte that was just tested is 0
                values = list(moved.registers)
                values[code.tested] = ZERO
                state = State(tuple(values), moved.slots)
            self.enter((key[0], to), state)


class Behind:
    """The state behind an instruction."""

    def __init__(self, run: Run, key: Key, code: Instruction) -> None:
        self.run, (self.entry, self.word), self.memory, self.told = run, key, run.memory, run.told
        self.key, self.code, self.near = key, code, run.nearby(key[1])
        self.is_own = run.function(self.entry) is code.function  # else its frame is another function's
        before = run.before[key]
        self.registers, self.slots = list(before.registers), before.slots

    def state(self) -> State:
        self.follow(self.code.effect)
        return State(tuple(self.registers), self.slots)

    def follow(self, effect: effects.Effect) -> None:
        registers = self.registers
        if isinstance(effect, effects.Copy):
            registers[effect.to:effect.to + effect.size] = registers[effect.of:effect.of + effect.size]
            if effect.size == 1 and registers[effect.to] & ALONE:
                self.pair_copied(effect.to)
        elif isinstance(effect, effects.Constant):
            is_named = effect.is_named
            registers[effect.to] = self.told.of_immediate(self.word, effect.to, effect.byte, True) if is_named else 1 << effect.byte
        elif isinstance(effect, effects.Sum):
            self.sum(effect)
        elif isinstance(effect, effects.Step):
            self.move(effect.pair, effect.by)
        elif isinstance(effect, effects.Logic):
            other = 1 << effect.byte if effect.of is None else registers[effect.of]
            registers[effect.to] = origin.mixed(registers[effect.to], other, effect.operation)
        elif isinstance(effect, effects.Negation):
            registers[effect.to] = origin.negated(registers[effect.to], effect.is_complement)
        elif isinstance(effect, effects.Mixed):
            made = [origin.shifted(registers[it], effect.shifts, effect.carries) for it in effect.of]
            for to, byte in zip(effect.to, made):
                registers[to] = byte if len(effect.to) == 1 else NUMBER
        else:
            self.follow_memory(effect)

    # sums

    def pair_at(self, register: int) -> Optional[Tuple[loaded.Pair, int]]:
        """From what a pair of registers is made, as its function tells."""
        return None if self.near is None else loaded.pair_of(self.near.bytes[register], self.near.bytes[register + 1])

    def distance(self, register: int) -> Optional[int]:
        """How far a pair is from where the stack pointer stood at the function's begin; None where that isn't known."""
        found = self.pair_at(register) if self.is_own else None
        if found is not None and found[0] == loaded.FRAME:
            return found[1]
        if self.is_own and self.near is not None and not self.run.elf.chip.has_sph and self.near.bytes[register] == loaded.FRAME[0]:
            return 0
        return None

    def with_variable(self, register: int) -> int:
        """What a register is made of: of a pair that is a place in the frame, the variable there."""
        byte, low = self.registers[register], register & ~1
        if byte < origin.LEAST_OBJECT:
            return byte
        distance = self.distance(low) if low != Y and byte & self.memory.frame_bit(self.entry) else None
        if distance is None:
            return byte
        return byte & ~self.memory.frame_bit(self.entry) | self.memory.frame_bit(self.entry, distance)

    def arguments(self) -> List[int]:
        """What the registers are made of as a function sees them that is called."""
        return [byte if byte < origin.LEAST_OBJECT else self.with_variable(it) for it, byte in enumerate(self.registers)]

    def is_in_frame(self, register: int) -> bool:
        return self.is_own and self.near is not None and loaded.is_of_frame(self.near.bytes[register])

    def is_constant(self, register: int) -> bool:
        return self.near is not None and self.near.bytes[register].kind == loaded.CONSTANT

    def sum(self, effect: effects.Sum) -> None:
        registers, to, of = self.registers, effect.to, effect.of
        if self.is_in_frame(to) and (of is None or self.is_constant(of)):
            self.note_open(to & ~1)
            return  # keeps to its frame, at a distance that is known
        if of is not None and not effect.is_less and self.is_constant(to) and self.is_in_frame(of):
            registers[to] = registers[of]
            return
        lower = registers[to - 1] if effect.carries and to else 0
        is_step = of is None and not effect.carries and effect.byte == 1 and self.code.opcode & 0xFE00 == 0x9400
        if of is None and not is_step:
            other, is_less = self.told.of_immediate(self.word, to, effect.byte, False), True
            if other & ~origin.CONSTANTS and self.told.has_records and not self.told.is_subtracted(self.word):
                is_less = False  # the address is negated, so it is added
            elif other & ~origin.CONSTANTS and not self.told.has_records:
                is_less = False
        else:
            other, is_less = 1 << effect.byte if of is None else self.with_variable(of), effect.is_less
        if of == to:
            borrowed = origin.of_constants((0, 0xFF)) if effect.carries else ZERO
            registers[to] = borrowed if is_less else origin.doubled(registers[to], effect.carries)
        else:
            if to % 2 == 0 and not effect.carries:
                registers[to + 1] = self.with_variable(to + 1)
            apply = origin.less if is_less else origin.plus
            registers[to] = apply(self.with_variable(to), other, effect.carries, lower)

    def note_open(self, register: int) -> None:
        """Notes a frame whose address is moved above it, to where arguments stand."""
        own = self.code.function
        function = loaded.of_function(self.run.elf, own.address) if own else None
        after = function.before.get(self.word + 1) if function else None
        if after is not None:
            pair, more = loaded.pair_of(after.bytes[register], after.bytes[register + 1])
            if pair == loaded.FRAME and more > 0:
                self.memory.open.add(self.memory.frame(self.entry))

    def move(self, register: int, by: int) -> None:
        """Adds a number to a pair."""
        if not by:
            return
        if (distance := self.distance(register)) is not None:
            if distance + by > 0:
                self.memory.open.add(self.memory.frame(self.entry))
            return
        apply = origin.plus if by > 0 else origin.less
        low = apply(self.registers[register], 1 << abs(by), False, 0)
        self.registers[register + 1] = apply(self.registers[register + 1], ZERO, True, low)
        self.registers[register] = low

    # memory

    def follow_memory(self, effect: effects.Effect) -> None:
        registers = self.registers
        if isinstance(effect, effects.Load):
            found, virtual = self.read(effect.pair, effect.more), self.virtual_at(effect.pair, effect.more)
            self.move(effect.pair, effect.step)
            self.take(effect.to, found, KEPT, virtual)
        elif isinstance(effect, effects.LoadAt):
            is_virtual = self.told.object_at(effect.address) & self.told.tables
            self.take(effect.to, self.at_address(effect.address), KEPT, VIRTUAL if is_virtual else 0)
        elif isinstance(effect, effects.LoadFlash):
            made = registers[Z] | registers[Z + 1]
            self.move(Z, effect.step)
            is_table = bool(made & (TABLE | CODE | KEPT | FLASH)) or not self.told.has_records
            self.take(effect.to, KEPT if is_table else NUMBER, FLASH)
        elif isinstance(effect, effects.Store):
            self.write(effect.pair, effect.more, self.with_variable(effect.of))
            self.move(effect.pair, effect.step)
        elif isinstance(effect, effects.StoreAt):
            self.write_at(effect.address, self.with_variable(effect.of))
        elif isinstance(effect, effects.Input):
            registers[effect.to] = self.at_address(effect.address)
        elif isinstance(effect, effects.Push):
            self.push(self.with_variable(effect.of))
        elif isinstance(effect, effects.Pop):
            registers[effect.to] = self.pop()

    def depth(self) -> Optional[int]:
        """How many bytes were pushed since the function's begin."""
        return self.near.depth if self.is_own and self.near is not None else None

    def push(self, byte: int) -> None:
        depth = self.depth()
        if depth is None:
            return
        distance = -depth
        self.memory.put(self.memory.pushed, Place(self.memory.frame(self.entry), distance, True), byte)
        self.slots = {**self.slots, distance: byte}

    def pop(self) -> int:
        depth = self.depth()
        if depth is None:
            return KEPT
        at = 1 - depth
        return self.slots[at] if at in self.slots else origin.paired(self.memory.in_frame(self.entry, at))

    def note_read(self, number: int) -> None:
        """Notes that what is read here changes with what is written in an object."""
        self.run.readers.setdefault(self.memory.whole(number), set()).add(self.key)

    def address(self, register: int, more: int) -> Optional[int]:
        """The address that a pair is known to be, plus a number."""
        found = self.pair_at(register)
        return (found[1] + more) & 0xFFFF if found is not None and found[0] == loaded.NOWHERE else None

    def objects_at(self, register: int, more: int) -> Iterator[Place]:
        """Yields the places of objects to which a pair may point: at a distance where it is an object's address to which a known number was
        added, else at what is added last or farther, since an index isn't negative."""
        bits = self.registers[register] | self.registers[register + 1]
        found = self.pair_at(register)
        distance: Optional[int] = None
        if found is not None and (base := self.base_of(*found)) is not None and not base & MOVED and base & OBJECTS == bits & OBJECTS:
            distance = found[1] + more
        least = max(more + (found[1] if found is not None and found[0] != loaded.NOWHERE else 0), 0)
        for number in origin.objects(bits):
            is_known = distance is not None and self.is_inside(number, distance)
            yield Place(number, distance, True) if distance is not None and is_known else Place(number, least, False)

    def is_inside(self, number: int, distance: int) -> bool:
        """Whether a distance is one in an object: in the firmware's, or in a variable of a frame."""
        if not self.memory.is_static(number):
            return self.memory.places[number][1] is not None
        begin, end = self.told.spans[number]
        return 0 <= distance < end - begin

    def base_of(self, pair: loaded.Pair, more: int) -> Optional[int]:
        """What a pair was made of to which a number was added; None where no register holds it any more."""
        if self.near is None:
            return None
        low, high = pair
        if self.is_own and low.kind == high.kind == loaded.GIVEN and (first := self.run.before.get((self.entry, self.entry))):
            return first.registers[low.number] | first.registers[high.number]
        for at in range(31):
            if self.near.bytes[at] == low and self.near.bytes[at + 1] == high:
                return self.registers[at] | self.registers[at + 1]
        return None

    def virtual_at(self, register: int, more: int) -> int:
        """The mark of what may be a function in a table of virtual functions, where a pair may point to one. The heap's own lists are in C."""
        own = self.code.function
        if own is not None and own.name in LOWEST or not (self.registers[register] | self.registers[register + 1]) & (self.told.tables | OF_CLASS):
            return 0
        found = self.pair_at(register)
        place = found[1] + more if found is not None else 0
        return VIRTUAL if found is None or not virtual_calls.is_in_memory(found[0]) or 0 <= place < self.told.table_bytes else 0

    def read(self, register: int, more: int) -> int:
        """What a byte of memory is made of to which a pair points."""
        if (distance := self.distance(register)) is not None:
            at = distance + more
            self.note_read(self.memory.frame(self.entry))
            if at not in self.slots:
                return self.memory.in_frame(self.entry, at)
            return few(self.slots[at] | self.memory.by_address(self.entry, at))
        if (address := self.address(register, more)) is not None:
            return self.at_address(address)
        low, high = self.registers[register], self.registers[register + 1]
        found = 0
        for place in self.objects_at(register, more):
            self.note_read(place.number)
            found |= self.memory.through_pointer(place)
        if high & (KEPT | FLASH | OTHER) or not found:
            kept = KEPT | OF_CLASS if self.told.tables else KEPT
            found |= NUMBER if self.is_of_registers(low, high, more) else kept
        return few(found)

    def is_of_registers(self, low: int, high: int, more: int) -> bool:
        """Whether a pair points to inputs and outputs alone."""
        if (low | high) & ~origin.CONSTANTS or not low or not high:
            return False
        numbers = [upper << 8 | lower for upper in constants(high) for lower in constants(low)]
        return all(it >= SMALL and self.is_io(it + more) for it in numbers)

    def is_io(self, address: int) -> bool:
        return address < self.run.device.first

    def at_address(self, address: int) -> int:
        """What a byte at a known address is made of."""
        self.note_read(self.memory.place_of(address).number)
        if address in (loaded.SPL, loaded.SPH):
            return self.memory.frame_bit(self.entry)
        if address < SMALL:
            return self.registers[address]
        return NUMBER if self.is_io(address) else self.memory.static(address)

    def take(self, to: int, found: int, mark: int, virtual: int = 0) -> None:
        """Gives a register a byte that was read: for itself, or as a half of the pair of which another register has the other half, with the
        mark `virtual` then."""
        other = self.partner(to)
        if other is None:
            self.registers[to] = origin.alone(found)
            return
        held = self.registers[other]
        if held & (POINTERS | ALONE):
            found = origin.paired(found)
        if found & (POINTERS | ALONE):
            held = origin.paired(held)
        if mark == FLASH:
            found, held = (it & ~KEPT | FLASH if it & KEPT else it for it in (found, held))
        both = virtual | found & OF_CLASS
        self.registers[to], self.registers[other] = found | both, held | both

    def pair_copied(self, to: int) -> None:
        """Makes a pair of two bytes that were read from neighbouring places into any registers, once both are copied into a pair."""
        after, low = self.run.nearby_after(self.word), to & ~1
        if after is not None and loaded.are_halves(after.bytes[low], after.bytes[low + 1]):
            self.registers[low:low + 2] = [origin.paired(it) for it in self.registers[low:low + 2]]

    def partner(self, to: int) -> Optional[int]:
        """The register that holds the other half of the pair in memory of which a load reads one half. The lower half has to be in an even
        register or in r0, and the other one in the odd one above: single bytes that lie beside each other are read one behind the other
        too."""
        if self.near is None:
            return None
        after = self.run.nearby_after(self.word)
        if after is None:
            return None
        own = after.bytes[to]
        lower = [to - 1, 0] if to % 2 else list(range(0, 32, 2)) if to == 0 else []
        upper = [to + 1] if to % 2 == 0 and to else list(range(1, 32, 2)) if to == 0 else []
        for other in lower:
            if other != to and loaded.are_halves(self.near.bytes[other], own):
                return other
        for other in upper:
            if loaded.are_halves(own, self.near.bytes[other]):
                return other
        return None

    def write_frame(self, distance: int, byte: int) -> None:
        place = Place(self.memory.frame(self.entry), distance, True)
        self.memory.put(self.memory.by_name, place, byte)
        self.note_kept(byte, place)
        self.slots = {**self.slots, distance: byte if byte & OBJECTS else byte & ~MOVED}

    def write_at(self, address: int, byte: int) -> None:
        if address < SMALL:
            self.registers[address] = byte
        elif not self.is_io(address):
            place = self.memory.place_of(address)
            self.memory.put(self.memory.by_name, place, byte & ~OF_CLASS)
            self.note_kept(byte, place)

    def note_kept(self, byte: int, place: Optional[Place]) -> None:
        if byte & VIRTUAL:
            self.run.kept.add((self.word, place))

    def write(self, register: int, more: int, byte: int) -> None:
        """Writes a byte to where a pair points, but for the loops of the start-up code, which write what stands there first."""
        if start_up.filled(self.run.elf, self.word) is not None:
            return
        if (distance := self.distance(register)) is not None:
            self.write_frame(distance + more, byte)
            return
        if (address := self.address(register, more)) is not None:
            self.write_at(address, byte)
            return
        low, high = self.registers[register], self.registers[register + 1]
        places = list(self.objects_at(register, more))
        if high & ZERO and not places:
            for it in constants(low):
                if it + more < SMALL:  # a register by its address
                    self.registers[it + more] = few(self.registers[it + more] | byte)
        for place in places:
            self.memory.put(self.memory.through, place, byte & ~OF_CLASS)
            self.note_kept(byte, place)
        if not places:
            self.note_kept(byte, None)


class Origins:
    """What is asked of both runs."""

    def __init__(self, elf: Elf, device: Device, reached: Reached, targets: Targets) -> None:
        self.elf, self.told = elf, Addresses(elf)
        firmware = Firmware(elf, device, reached, targets, self.told)
        self.run = Run(firmware, Run(firmware))
        for _ in range(MORE_RUNS):
            if not self.run.memory.has_purer():
                break
            self.run = Run(firmware, self.run)
        self.made: Optional[int] = None
        self.by_word: Dict[int, List[Key]] = {}
        for key in self.run.before:
            self.by_word.setdefault(key[1], []).append(key)

    def is_reached(self, word: int) -> bool:
        return word in self.by_word

    def keeps_virtual(self) -> bool:
        """Whether what may be a function read from a table of virtual functions is written to memory that something reads otherwise than by
        name."""
        return any(place is None or self.is_pointed_to(place) for _, place in self.run.kept)

    def is_pointed_to(self, place: Place) -> bool:
        """Whether a pointer to the object of a place may be made."""
        memory = self.run.memory
        if not memory.is_static(place.number):
            return any(it <= place.distance for it in memory.variables.get(memory.places[place.number][0], ()))
        return bool(self.pointed_to() >> origin.FIRST_OBJECT + place.number & 1)

    def pointed_to(self) -> int:
        """The bits of all objects whose address is in a register or in memory at any time."""
        if self.made is None:
            memory, told = self.run.memory, self.told
            firsts = (told.first_value(at) for begin, end in told.spans for at in range(begin, end))
            bytes_of_registers = (byte for state in self.run.before.values() for byte in state.registers)
            self.made = functools.reduce(int.__or__, (*memory.by_name.values(), *memory.through.values(), *firsts, *bytes_of_registers), 0)
        return self.made

    def pairs_at(self, word: int, register: int) -> Iterator[Tuple[int, int]]:
        """Yields what a pair of registers is made of at a word, by each function that reaches it; not where it is a place of the frame that
        is known."""
        near = self.run.nearby(word)
        is_frame = near is not None and loaded.pair_of(near.bytes[register], near.bytes[register + 1])[0] == loaded.FRAME
        for key in self.by_word.get(word, ()) if not is_frame else ():
            if register == effects.X and self.returns_in_registers(key[0]):
                continue
            registers = self.run.before[key].registers
            yield registers[register], registers[register + 1]

    def returns_in_registers(self, entry: int) -> bool:
        """Whether a function is one of avr-libc's that has `eeprom_read_block` store into the registers in which it returns, by their
        addresses."""
        function = self.run.function(entry)
        return function is not None and function.name.startswith("eeprom_read_") and not function.name.startswith("eeprom_read_bl")
