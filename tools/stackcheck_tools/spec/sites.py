"""Sites of a function to which a line of a spec speaks: by their number, all of them, or those of a source line."""

from __future__ import annotations

import os
import re
from typing import Callable, Iterator, List, Set, Tuple

from stackcheck_tools.firmware import debug_lines, opcodes
from stackcheck_tools.firmware.elf import Elf, Symbol
from stackcheck_tools.firmware.inlined import copies
from stackcheck_tools.firmware.names import SpecFault, base, forms, function, functions, named, plain
from stackcheck_tools.spec.scratch import is_push

NEAR = 4  # how many instructions before a write of the stack pointer its byte is moved, at most
AT_LINE = re.compile(r"(.+):(\d+)$")
SITES = {"jump": (opcodes.is_indirect, "indirect transfer"), "scratch": (is_push, "push instruction")}
STORES = opcodes.is_pointer_store, "pointer store"


def copies_of(elf: Elf, name: str) -> List[Tuple[int, int]]:
    """The spans of byte addresses where a function's code stands within others, as the debug information tells."""
    name = elf.chip.handlers.get(name, name)
    wanted = plain(name if "::" in name else name.rpartition(":")[2])
    return [span for key, parts in copies(elf).items() if base(key) == wanted or wanted in forms(base(key)) for span in parts]


def words_of(elf: Elf, name: str, test: Callable[[int], bool] = lambda _: True) -> Set[int]:
    """The words of the instructions of a function, its clones, and its code within others, for which a test holds."""
    spans = copies_of(elf, name)
    symbols = functions(elf, name) if not spans or any(named(elf, name)) else []
    found = {word for symbol in symbols for word in opcodes.sites(elf, symbol, test)}
    for begin, end in spans:
        symbol = elf.symbol_at(begin)
        found |= {word for word in opcodes.sites(elf, symbol, test) if begin <= 2 * word < end} if symbol else set()
    return found


def counted(count: int, what: str) -> str:
    return f"{count} {what}{'' if count == 1 else 's'}"


def numbered(elf: Elf, kind: str, name: str, number: str) -> Set[int]:
    """The word of the N-th site, counted from 1, of this kind in a function."""
    test, what = SITES.get(kind, STORES)
    if copies_of(elf, name) and not any(named(elf, name)):
        raise SpecFault(f"all code of {name} is inlined in other functions: write `{name} *` in place of its number")
    found = opcodes.sites(elf, function(elf, name), test)
    if not number.isdecimal() or not 1 <= int(number) <= len(found):
        raise SpecFault(f"{name} has {counted(len(found), what)}, and no number {number}")
    return {found[int(number) - 1]}


def each(elf: Elf, kind: str, name: str) -> Set[int]:
    """The words of all sites of this kind in a function, its clones, and its code within others."""
    test, what = SITES.get(kind, STORES)
    found = words_of(elf, name, test)
    if not found:
        raise SpecFault(f"{name} has no {what}")
    return found


def file_of(elf: Elf, name: str) -> str:
    """The source file of a function, or a file's own name."""
    own, clones = named(elf, name)
    for address in [*(it.address for it in [*own, *clones]), *(begin for begin, _ in copies_of(elf, name))]:
        if source := debug_lines.of(elf).source(address):
            return source[0]
    if own or clones:
        raise SpecFault(f"{name} has no line numbers: build it with -g, or write its name and *")
    if os.path.splitext(name)[1]:
        return name
    functions(elf, name)  # which tells near names
    return name


def words_of_line(elf: Elf, name: str, line: int) -> List[int]:
    """The words of a source line, wherever the compiler has put them, and of no other function's line where a function is named."""
    file = file_of(elf, name)
    found = debug_lines.of(elf).words(file, line)
    if not found:
        raise SpecFault(f"there is no code of {name}:{line}")
    return found


def at_line(elf: Elf, kind: str, text: str) -> Set[int]:
    """The words of the sites of this kind on a source line, FUNCTION:LINE or FILE:LINE."""
    name, _, line = text.rpartition(":")
    test, what = SITES.get(kind, STORES)
    found = {word for word in words_of_line(elf, name, int(line)) if test(elf.word(word))}
    if not found:
        raise SpecFault(f"{text} has no {what}")
    return found


def frames_of(elf: Elf, symbol: Symbol) -> Iterator[int]:
    """The words of a function where `add` and `adc` give its frame back, `add` alone without SPH, and where the frame's high byte alone is
    moved."""
    has_sph = elf.chip.has_sph
    code = list(opcodes.words_of(elf, symbol))
    for n, (word, opcode) in enumerate(code):
        after = code[n + 1:n + 1 + NEAR]
        if opcodes.is_add(opcode) and opcodes.destination(opcode) == opcodes.FRAME_LOW and after:
            if not has_sph and any(it == opcodes.OUT_SPL_R28 for _, it in after):
                yield word
            elif opcodes.is_adc(after[0][1]) and opcodes.destination(after[0][1]) == opcodes.FRAME_HIGH:
                yield from (word, after[0][0])
        elif opcodes.moves_high_byte(opcode) and any(it == opcodes.OUT_SPH_R29 for _, it in after):
            yield word


def frames(elf: Elf, name: str) -> Set[int]:
    """The words of the `frame` lines of a function, or of all that give a frame back in the firmware."""
    if name == "@frames":
        found = {word for symbol in elf.code for word in frames_of(elf, symbol)}
        what = "the firmware has no frame that is released by `add` and `adc`, or moved by its high byte alone"
    else:
        found = words_of(elf, name, opcodes.is_frame_site)
        what = f"{name} has no `add`, `adc`, `sub`, `subi`, `inc` or `dec`"
    if not found:
        raise SpecFault(what)
    return found
