"""Calls of virtual functions: by the place of a table from which a pointer is loaded, and by the object whose table it is.

A call whose pointer is, on all ways, the word at M[p] + 2k with M[p] a word of memory to which p points, enters what stands k places behind
where the pointer of an object may lead, or a function whose address is taken elsewhere: nothing else that stands in memory leads into a
table. One whose pointer is read at a fixed address, or from what an argument points to, reads no table. Where p is the function's own object,
the call reads a table of its class or of one that derives from it, and nothing else. """

from __future__ import annotations

import functools
import re
from typing import FrozenSet, List, NamedTuple, Optional, Set, Tuple

from stackcheck_tools.dataflow import loaded
from stackcheck_tools.dataflow.loaded import FIXED, GIVEN, MEMORY, Byte, Function, Pair, are_halves, is_frame, pair_of
from stackcheck_tools.firmware import candidates, effects, opcodes, records, taken, virtual_tables
from stackcheck_tools.firmware.cxx_names import written
from stackcheck_tools.firmware.effects import Z
from stackcheck_tools.firmware.elf import CODE_END, Elf, Symbol
from stackcheck_tools.firmware.names import base
from stackcheck_tools.firmware.virtual_tables import Point

OBJECT: Pair = (Byte(GIVEN, 24), Byte(GIVEN, 25))  # what a member function is given of its own object
LAST_ARGUMENT = 26  # arguments stand in registers below
SIZES = {"bool": 1, "char": 1, "signed char": 1, "unsigned char": 1, "short": 2, "unsigned short": 2, "int": 2, "unsigned int": 2, "long": 4,
         "unsigned long": 4, "float": 4, "double": 4, "long long": 8, "unsigned long long": 8, "wchar_t": 2}
CHANGED_ARGUMENTS = re.compile(r"\.(isra|part)\b")  # copies of functions whose arguments aren't those of their names


class Call(NamedTuple):
    """What a call reads: a `place` of tables (None: it reads no table), and, where that is known, the tables that it may be of."""

    place: Optional[int]
    points: Optional[Tuple[Point, ...]]


def function_at(elf: Elf, word: int) -> Optional[Function]:
    """The function in which a word lies, where each way in it is known."""
    symbol = elf.symbol_at(2 * word)
    found = None if symbol is None else loaded.of_function(elf, symbol.address)
    return found if found is not None and found.is_whole and word in found.before else None


def is_in_memory(pair: Pair) -> bool:
    """Whether a pair is one word of memory, and not of the frame, where the compiler may keep anything."""
    low = pair[0]
    return are_halves(*pair) and (low.kind == FIXED or low.kind == MEMORY and low.pair is not None and not is_frame(low.pair))


def is_in_table(elf: Elf, address: int) -> bool:
    return any(begin <= CODE_END + address < end for begin, end in virtual_tables.spans(elf))


def is_read(elf: Elf, site: int) -> bool:
    """Whether the pointer of a call is read from memory on each way."""
    function = function_at(elf, site)
    return function is not None and are_halves(*function.before[site].bytes[Z:Z + 2]) and function.before[site].bytes[Z].kind in (FIXED, MEMORY)


def of_site(elf: Elf, site: int) -> Optional[Call]:
    """What the call or jump through a pointer at a word reads; None where it may be anything."""
    function = function_at(elf, site)
    if function is None:
        return None
    low, high = function.before[site].bytes[Z:Z + 2]
    if not are_halves(low, high):
        return None
    if low.kind == FIXED:
        return None if is_in_table(elf, low.number) else Call(None, None)
    if low.kind != MEMORY or low.pair is None:
        return None
    table = low.pair
    if table[0].kind == table[1].kind == GIVEN and table[1].number == table[0].number + 1:
        return None if CHANGED_ARGUMENTS.search(function.symbol.name) else Call(None, None)
    if not is_in_memory(table) or low.number < 0 or low.number % 2:
        return None
    is_own = table[0].kind == MEMORY and table[0].pair == OBJECT and table[0].number == 0 and is_object(elf, function, site)
    found = of_object(elf, function.symbol) if is_own else ()
    return Call(low.number // 2, found or None)


def of_object(elf: Elf, symbol: Symbol) -> Tuple[Point, ...]:
    """The tables that the object of a member function may have."""
    name = virtual_tables.name_of(symbol.name)
    if name is None:
        return ()
    return virtual_tables.fitting(elf, symbol.address // 2, name, is_entered_by_tables(elf, symbol))


@functools.lru_cache(maxsize=None)
def called_by_name(elf: Elf) -> FrozenSet[int]:
    """The words that calls and jumps of functions name, but for those of thunks and of the same function."""
    found: Set[int] = set()
    for words in candidates.code(elf):
        own = elf.symbol_at(2 * words[0][0]) if words else None
        for word, _ in words if own is not None and not virtual_tables.THUNK.match(own.name) else ():
            to = opcodes.call_target(elf, word)
            to = opcodes.jump_target(elf, word) if to is None else to
            if to is not None and own is not None and (to != own.address // 2 or opcodes.call_target(elf, word) is not None):
                found.add(to)
    return frozenset(found)


def is_entered_by_tables(elf: Elf, symbol: Symbol) -> bool:
    """Whether a function is entered by tables of virtual functions alone."""
    word = symbol.address // 2
    return word not in taken_by(elf, virtual_tables.spans(elf)) and word not in called_by_name(elf)


def taken_by(elf: Elf, but: Tuple[Tuple[int, int], ...]) -> FrozenSet[int]:
    """The functions whose address is taken elsewhere than within some spans; without records as far as the search goes that needs no
    certificate."""
    found = records.taken(elf, but)
    return frozenset(found) if found is not None else taken.searched(elf, but)


def parameters(name: str) -> Optional[List[str]]:
    """The types of the parameters in a function's name; None where it has none."""
    depth, begin, found = 0, None, []
    for at, letter in enumerate(name):
        if letter in "(<":
            depth += 1
            begin = at + 1 if letter == "(" and depth == 1 and begin is None else begin
        elif letter in ")>":
            depth -= 1
            if depth == 0 and letter == ")" and begin is not None:
                found.append(name[begin:at].strip())
                return [it for it in found if it]
        elif letter == "," and depth == 1 and begin is not None:
            found.append(name[begin:at].strip())
            begin = at + 1
    return None


def size_of(kind: str) -> Optional[int]:
    """The bytes of a parameter's type; None where the name doesn't tell them."""
    if kind.endswith(("*", "&")) or "(*)" in kind:
        return 2
    return SIZES.get(re.sub(r"\b(const|volatile)\b", "", kind).strip())


def is_member(elf: Elf, function: Function) -> bool:
    """Whether a function is certainly a member function with an object, by its name and by the registers that it uses."""
    symbol = function.symbol
    if CHANGED_ARGUMENTS.search(symbol.name) or virtual_tables.name_of(symbol.name) is None:
        return False
    below = least_parameter(base(symbol.name))
    is_used = below is not None and uses_pair(elf, function, below - 2)
    if symbol.name != base(symbol.name):  # a copy of a function, of which parameters may be left out
        return is_used
    if symbol.name.startswith("_ZNK") or any(symbol.address // 2 in it.words for it in virtual_tables.points(elf)):
        return True
    own = written(symbol.name)
    kinds = parameters(own) if own is not None else None
    return kinds is not None and (not kinds or size_of(kinds[0]) == 1) or is_used


def least_parameter(symbol: str) -> Optional[int]:
    """The lowest register in which parameters would stand without an object before them; None where the name doesn't tell."""
    own = written(symbol)
    kinds = parameters(own) if own is not None else None
    at = LAST_ARGUMENT
    for kind in kinds or ():
        size = size_of(kind)
        if size is None:
            return None
        at -= size + size % 2
    return at if kinds is not None and at >= 10 else None


def uses_pair(elf: Elf, function: Function, register: int) -> bool:
    """Whether a function uses what it was given in a pair of registers otherwise than to keep it."""
    for word, state in function.before.items():
        read = effects.read(effects.at(elf, word)) if not isinstance(effects.at(elf, word), effects.Push) else ()
        if any(it in (register, register + 1) and state.bytes[it] == Byte(GIVEN, it) for it in read):
            return True
    return False


def is_object(elf: Elf, function: Function, site: int) -> bool:
    """Whether what a function is given first is certainly its own object, which was there before: the function returns no object whose
    place it is given."""
    return virtual_tables.is_whole(elf) and is_member(elf, function) and is_there(elf, function, site)


def is_there(elf: Elf, function: Function, site: int) -> bool:
    """Whether some way leads from a function's begin to a word without a call and without a store through what it was given first."""
    seen, left = {function.begin}, [function.begin]
    while left:
        word = left.pop()
        if word == site:
            return True
        opcode = elf.word(word)
        if opcode in loaded.RETURNS or opcodes.is_indirect(opcode) or opcodes.call_target(elf, word) not in (None, word + opcodes.length(opcode)):
            continue
        effect, state = effects.at(elf, word), function.before.get(word)
        if isinstance(effect, effects.Store) and state is not None and pair_of(*state.bytes[effect.pair:effect.pair + 2])[0] == OBJECT:
            continue
        for to in opcodes.following(elf, word):
            if function.begin <= to < function.end and to not in seen:
                seen.add(to)
                left.append(to)
    return False
