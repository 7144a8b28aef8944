"""Tables of `switch`, the helper that jumps through them, and words of a function that its own jumps may enter."""

from __future__ import annotations

import functools
from typing import FrozenSet, Iterator, NamedTuple, Optional, Set, Tuple

from stackcheck_tools.firmware import candidates, opcodes, records, taken
from stackcheck_tools.firmware.elf import Elf, Symbol

HELPER = "__tablejump2__"
CONSTRUCTORS = ("__do_global_ctors", "__do_global_dtors")  # code that walks through the lists of constructors and destructors


class Jump(NamedTuple):
    """A call or jump to the helper: its word, the function in which it stands, and the word at which its table begins (None: not known)."""

    word: int
    symbol: Optional[Symbol]
    table: Optional[int]


@functools.lru_cache(maxsize=None)
def jumps(elf: Elf) -> Tuple[Jump, ...]:
    """All calls and jumps to the helper."""
    helper, found = {it.address // 2 for it in elf.named(HELPER)}, []
    for words in candidates.code(elf) if helper else ():
        for word, _ in words:
            to = opcodes.jump_target(elf, word)
            to = opcodes.call_target(elf, word) if to is None else to
            if to in helper and word not in helper:
                found.append(Jump(word, elf.symbol_at(2 * word), opcodes.table_before(elf, word)))
    return tuple(found)


@functools.lru_cache(maxsize=None)
def spans(elf: Elf) -> Tuple[Tuple[int, int], ...]:
    """The begin and end of each table, in words: as far as its words lead into its function, and no other table begins."""
    found = []
    begins = {it.table for it in jumps(elf)}
    for jump in jumps(elf):
        if jump.table is not None and jump.symbol is not None:
            begin, end = elf.extent(jump.symbol)
            at = jump.table
            while begin <= 2 * elf.word(at) < end and (at == jump.table or at not in begins):
                at += 1
            found.append((jump.table, at))
    return tuple(found)


def constructors(elf: Elf) -> Set[int]:
    """The words of the lists of constructors and destructors."""
    begin, end = records.constructor_lists(elf)
    return {elf.word(at // 2) for at in range(begin, end, 2)}


@functools.lru_cache(maxsize=None)
def of_helper_itself(elf: Elf) -> FrozenSet[int]:
    """The words of the helper's own jumps."""
    return frozenset(word for it in elf.named(HELPER) for word, opcode in opcodes.words_of(elf, it) if opcodes.is_indirect(opcode))


@functools.lru_cache(maxsize=None)
def of_helper(elf: Elf) -> Optional[FrozenSet[int]]:
    """The words that the helper may enter; None where one of its jumps has a table that isn't known."""
    for it in jumps(elf):
        if it.table is None and (it.symbol is None or it.symbol.name not in CONSTRUCTORS):
            return None
    return frozenset(constructors(elf) | {elf.word(at) for begin, end in spans(elf) for at in range(begin, end)})


def records_elsewhere(elf: Elf) -> Iterator[records.Record]:
    """Yields the records that name places of code and don't stand in tables of `switch`."""
    tables = spans(elf)
    yield from (it for it in records.named(elf) if not any(2 * begin <= it.place < 2 * end for begin, end in tables))


@functools.lru_cache(maxsize=None)
def labels_named(elf: Elf) -> FrozenSet[int]:
    """The words of code that records name elsewhere than in tables of `switch`, or whose difference from another one they note."""
    return frozenset({it.address // 2 for it in records_elsewhere(elf)} | records.differences(elf))


@functools.lru_cache(maxsize=None)
def numbers(elf: Elf) -> FrozenSet[int]:
    """The numbers of two bytes that stand in data or are loaded into a pair."""
    return taken.numbers_in_data(elf) | taken.numbers_loaded(elf)


@functools.lru_cache(maxsize=None)
def words_in(elf: Elf, symbol: Symbol) -> FrozenSet[int]:
    return frozenset(word for word, _ in opcodes.words_of(elf, symbol))


def labels(elf: Elf, site: int) -> FrozenSet[int]:
    """The words inside the function of a jump at which an instruction begins and to which it may lead: of `goto *`."""
    symbol = elf.symbol_at(2 * site)
    if symbol is None or not opcodes.is_jump(elf.word(site)):
        return frozenset()
    known = labels_named(elf) if records.has_records(elf) else numbers(elf)
    return words_in(elf, symbol) & known
