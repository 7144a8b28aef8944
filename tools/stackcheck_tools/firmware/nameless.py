"""Code without names: functions whose names were taken away (`strip -x`), between those that have one with a size."""

from __future__ import annotations

import functools
from typing import Dict, FrozenSet, List, Tuple

from stackcheck_tools.firmware import opcodes, records
from stackcheck_tools.firmware.elf import CODE_END, EXECUTED, Elf, Symbol

Span = Tuple[int, int]  # of byte addresses


def code_begin(elf: Elf) -> int:
    """Where code begins behind the vectors, tables in flash and the lists of constructors."""
    return records.constructor_lists(elf)[1] or min((it.address for it in elf.code if it.is_function or it.name == "__init"), default=0)


def code_end(elf: Elf) -> int:
    return max((it[3] + it[5] for it in elf.headers if it[2] & EXECUTED and it[3] < CODE_END), default=elf.flash_end)


def instructions(elf: Elf, span: Span) -> List[Tuple[int, int]]:
    """(word, opcode) of a span of code."""
    return list(opcodes.words_of(elf, Symbol("", span[0], span[1] - span[0], True, "")))


def between(elf: Elf) -> List[Span]:
    """The spans of code that lie in no function with a size."""
    begin, found = code_begin(elf), []
    for symbol in elf.code:
        if symbol.size:
            if begin < symbol.address:
                found.append((begin, symbol.address))
            begin = max(begin, symbol.end())
    return found + ([(begin, code_end(elf))] if elf.code and begin < code_end(elf) else [])


@functools.lru_cache(maxsize=None)
def pieces(elf: Elf) -> Dict[int, Span]:
    """The pieces of these spans by where they begin: each where such a span does, at a label, or behind a jump or a return."""
    found, labels = {}, set(elf.addresses)
    for span in between(elf):
        begin = span[0]
        for word, opcode in instructions(elf, span):
            if 2 * word in labels and begin < 2 * word:
                found[begin] = begin, 2 * word
                begin = 2 * word
            if opcodes.ends(opcode):
                found[begin] = begin, 2 * (word + opcodes.length(opcode))
                begin = found[begin][1]
        if begin < span[1]:
            found[begin] = begin, span[1]
    return found


@functools.lru_cache(maxsize=None)
def nameless(elf: Elf) -> FrozenSet[int]:
    """The words at which a piece begins that has no name."""
    return frozenset(it // 2 for it in pieces(elf) if it not in set(elf.addresses))
