"""Where an indirect transfer may go: the functions whose address is taken somewhere, and the words of tables."""

from __future__ import annotations

import copy
import functools
from typing import Callable, Dict, Iterator, List, Optional, Set, Tuple

from stackcheck_tools.firmware import opcodes
from stackcheck_tools.firmware.devices import Device
from stackcheck_tools.firmware.elf import Elf, Symbol
from stackcheck_tools.firmware.library_names import is_library
from stackcheck_tools.firmware.nameless import nameless
from stackcheck_tools.firmware.names import SpecFault
from stackcheck_tools.firmware.targets import addresses_loaded, constructors, starts, tables, taken, words_in_data

LOOK_BACK = 16  # instructions before a transfer in which its table is looked for


def or_none(make: Callable[[Elf], Set[int]], elf: Elf) -> Set[int]:
    try:
        return make(elf)
    except SpecFault:
        return set()


def start(elf: Elf) -> Optional[int]:
    """The word at which the program begins: where the first word of flash leads; None where it isn't a jump."""
    return opcodes.jump_target(elf, 0)


def is_start_up(elf: Elf, word: int) -> bool:
    """Whether a word lies in the first straight run of instructions of the program, where the stack pointer is set."""
    at = start(elf)
    for _ in range(12):
        if at is None or at == word:
            break
        at += opcodes.length(elf.word(at))
    return at == word


def with_whole(elf: Elf) -> Elf:
    """The file as it is; where it has no names, with one symbol for all code behind the vectors."""
    if elf.code:
        return elf
    begin, other = 2 * (start(elf) or 0), copy.copy(elf)
    other.code = [Symbol("", begin, elf.flash_end - begin, True, "")]
    return other


@functools.lru_cache(maxsize=None)
def code(elf: Elf) -> Tuple[Tuple[Tuple[int, int], ...], ...]:
    """Tuples of (word address, opcode): the instructions of each function, or all of them where none has a name."""
    return tuple(tuple(opcodes.words_of(elf, it)) for it in with_whole(elf).code if it.is_function or it.name.startswith("__"))


@functools.lru_cache(maxsize=None)
def addressed(elf: Elf, device: Device) -> Set[int]:
    """The words of all functions whose address is taken. Where none has a name, a function is what begins behind the end of another, and no
    handler."""
    if elf.code:
        return taken(elf)
    begins = {after for words in code(elf) for (_, opcode), (after, _) in zip(words, words[1:]) if opcodes.ends(opcode)}
    handlers = {opcodes.jump_target(elf, device.vector_word(it)) for it in device.vectors}
    whole = with_whole(elf)
    return (begins - handlers) & {*addresses_loaded(whole), *words_in_data(whole)}


def table_of_jumps(elf: Elf, site: int) -> Set[int]:
    """The words of a table of `rjmp` that the `ijmp` at a word goes through, as far as they lead into its function; none where it has no
    such table."""
    symbol, table = elf.symbol_at(2 * site), opcodes.table_before(elf, site)
    if symbol is None or table is None or not opcodes.is_jump(elf.word(site)):
        return set()
    begin, end = elf.extent(symbol)
    found: Set[int] = set()
    while (target := opcodes.jump_target(elf, table)) is not None and begin <= 2 * target < end:
        found.add(table)
        table += 1
    return found


def before(elf: Elf, site: int, count: int) -> List[Tuple[int, int]]:
    """Up to so many (word, opcode) of a function before a word, the last one first."""
    symbol = elf.symbol_at(2 * site)
    words = [it for it in opcodes.words_of(elf, symbol) if it[0] < site] if symbol else []
    return words[:-count - 1:-1]


def table_end(elf: Elf, table: int, masks: List[int]) -> Optional[int]:
    """The byte address behind a table in flash: as its name says, or as a mask before it limits the index; None where neither tells it."""
    for address, size in elf.objects.values():
        if address <= table < address + size:
            return address + size
    return table + 2 * (masks[0] + 1) if masks else None


def of_flash_table(elf: Elf, site: int) -> Set[int]:
    """The functions of the table in flash from which a transfer's pointer is loaded, where it has nothing else; none where it isn't one."""
    words = before(elf, site, LOOK_BACK)
    if not any(opcodes.is_lpm(opcode) for _, opcode in words[:6]):
        return set()
    table = next((it for at, _ in words if (it := opcodes.table_added(elf, at)) is not None and 0 < it < elf.flash_end), None)
    if table is None or table % 2:
        return set()
    masks = [opcode & 15 | opcode >> 4 & 0xF0 for _, opcode in words if opcode & 0xF000 == 0x7000]
    end, known = table_end(elf, table, masks), starts(elf)
    found: Set[int] = set()
    for word in range(table // 2, table // 2 + 256 if end is None else end // 2):
        if elf.word(word) not in known:
            return found if end is None and len(found) > 1 else set()
        found.add(elf.word(word))
    return found


def of_helper(elf: Elf) -> Set[int]:
    """The constructors of static objects, and all that tables of `switch` lead to."""
    begin, end = elf.all.get("__dtors_start", 0), elf.all.get("__dtors_end", 0)
    return or_none(constructors, elf) | or_none(tables, elf) | {elf.word(at // 2) for at in range(begin, end, 2)}


def may_be_entered(elf: Elf, site: int, word: int) -> bool:
    """Whether a transfer that a run made is one that a program means: to where a function begins, or within a table's function; not to
    reset."""
    symbol, caller = elf.symbol_at(2 * word), elf.symbol_at(2 * site)
    if symbol is None or caller is None:
        return word != 0 and not elf.code
    if symbol.address == 2 * word != 0 or word in nameless(elf):
        return True
    return caller.name == "__tablejump2__" or caller.address == symbol.address != 0


def indirect(elf: Elf) -> Iterator[int]:
    """The words of all calls and jumps through a pointer but those of the compiler's own helpers and of tables in their own function."""
    for words in code(elf):
        for at, opcode in words:
            symbol = elf.symbol_at(2 * at) if opcodes.is_indirect(opcode) else None
            if opcodes.is_indirect(opcode) and not (symbol and is_library(symbol.name)) and not table_of_jumps(elf, at):
                yield at


@functools.lru_cache(maxsize=None)
def entered(elf: Elf) -> Dict[int, Set[int]]:
    """For each function's first word those of the functions that it enters by calls and jumps that name them, itself where it calls
    itself."""
    found: Dict[int, Set[int]] = {}
    for symbol in elf.code:
        held = found.setdefault(symbol.address // 2, set())
        for at, _ in opcodes.words_of(elf, symbol):
            call, jump = opcodes.call_target(elf, at), opcodes.jump_target(elf, at)
            target = jump if call is None else call
            other = elf.symbol_at(2 * target) if target is not None else None
            if other and (other.address != symbol.address or call == symbol.address // 2):
                held.add(other.address // 2)
    return found


def reached(elf: Elf, word: int) -> Set[int]:
    """The first words of the functions that are entered from one, at once or by others; its own only where it is among them."""
    graph = entered(elf)
    found: Set[int] = set()
    left = list(graph.get(word, ()))
    while left:
        at = left.pop()
        if at not in found:
            found.add(at)
            left += graph.get(at, ())
    return found
