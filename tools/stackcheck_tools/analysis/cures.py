"""The usual cause of a refusal, and what helps: the table of docs/TROUBLESHOOTING.md, which `stackcheck --cures` prints."""

from __future__ import annotations

import re
from typing import List, Optional, Tuple

from stackcheck_tools.analysis import registers
from stackcheck_tools.firmware import candidates, opcodes
from stackcheck_tools.firmware.devices import Device
from stackcheck_tools.firmware.elf import Elf
from stackcheck_tools.firmware.targets import constructors, tables
from stackcheck_tools.spec.lines import Lines
from stackcheck_tools.spec.spec import is_unhandled

# The refusals of `analyse`, by the numbers that it prints.
UNRESOLVED_JUMP, RECURSION, RE_ENTRY, UNTRACKED_SP = "1", "2", "3", "4"
UNSUPPORTED, TOO_DEEP, TOO_LARGE, UNKNOWN_POINTER = "5", "6", "7", "8"
# By name: the text and where it stands, the usual cause, the cure.
CURES = {
    "tables": (
        "`refused 1 .. ijmp` in `__tablejump2__`",
        "a `switch` that jumps through a table of more than 64 entries, or by an index of more than eight bits",
        "`-fno-jump-tables`, for the libraries too; if only one function has such a table, `jump __tablejump2__ 1 @tables`"),
    "constructors": (
        "the same, in a C++ program without such tables",
        "the start-up code calls the constructors of static objects",
        "`jump __tablejump2__ 1 @constructors`"),
    "pointer": (
        "`refused 1` at another `icall` or `ijmp`",
        "a call of a function pointer or of a virtual function",
        "`jump FUNCTION N TARGET ..` with all its targets; `@vtable CLASS N` for a virtual function, once for each class"),
    "stream": (
        "`refused 1` in `fputc`, `fgetc`, `puts_P` or another function of stdio",
        "a call of the put or get function of a stream",
        "`jump FUNCTION N TARGET ..` with the functions that `FDEV_SETUP_STREAM` or `fdevopen` was given"),
    "put": (
        "`refused 2` at a function whose address is taken, and which calls itself",
        "a put function of stdio that calls itself for `\\r`, as in avr-libc's own example",
        "a second function that writes the byte, called for both; or `recursion FUNCTION 2`"),
    "recursion": (
        "`refused 2` elsewhere",
        "a function that calls itself, directly or indirectly",
        "rewrite it as a loop; or `recursion FUNCTION N`, if at most N activations stand on the stack at a time"),
    "sketch": (
        "`refused 2` or `3` of an Arduino sketch, where functions are called through pointers",
        "the sketch was built without `-flto`, so the compiler leaves calls through pointers that it could resolve",
        "`-flto` for compiling and linking, as Arduino's IDE builds; with the core's USB code (Leonardo, Micro) this helps some sketches "
        "only"),
    "merged": (
        "`refused 3` of a handler that calls a handler",
        "the compiler has merged handlers with equal bodies, and the `reti` of the called one enables interrupts",
        "`-fno-ipa-icf`"),
    "by name": (
        "`refused 3` of a handler that calls a handler beside other code",
        "the source calls a handler by its name, and its `reti` enables interrupts",
        "a function for what both do, which each handler calls"),
    "kept flags": (
        "`refused 3` of a handler whose code writes SREG with a byte from memory",
        "`SREG = old` with `old` in memory, such as the frame: its bit I is not known there, so it may enable interrupts",
        "`old` in a register: not `volatile`, its address not taken; in a handler, where interrupts are off, neither `cli()` nor `SREG = "
        "old` is needed"),
    "noblock": (
        "`refused 3` of a handler that begins with `sei`",
        "`ISR_NOBLOCK`, which re-enables its own interrupt immediately",
        "`ISR(X_vect) { mask; sei(); ..; cli(); unmask }`: clears its own enable bit before `sei()`, and sets it after `cli()`"),
    "re-entry": (
        "`refused 3` of another handler",
        "it executes `sei` while its own interrupt is enabled",
        "clear its own enable bit first; if a constant pointer does that, `prove FUNCTION N` for these stores"),
    "prologues": (
        "`refused 4 .. out 0x3E, r29` in `__epilogue_restores__`",
        "`-mcall-prologues`, with which avr-libc's printf family, `strtol`, `qsort`, `dtostrf` and time functions are built too",
        "`frame @frames`; or build without it, and do without these functions (`utoa` and `itoa` need none of it)"),
    "division": (
        "the same, with `frame @frames` and without `pairs`",
        "32-bit division (`__udivmodsi4`) or `sscanf` beside such a function: libgcc counts r1 down to 0, which bits and ranges do not "
        "show after the loop",
        "`pairs`; or `docs/examples/udivmodsi4.S` linked in, in place of libgcc's routine; or `sscanf` left out"),
    "zero register": (
        "the same with both, if a function computes with r1 and does not clear it",
        "r1, which compiled code takes to be 0, is not known as 0: avr-libc's `sqrt` shifts a bit through it until it is 0",
        "`clr r1` after each call: `float root = sqrt(x); __asm__ volatile (\"clr r1\");`"),
    "two tables": (
        "`refused 2` or `4` with `jump __tablejump2__ 1 @tables`",
        "tables of `switch` in two functions: the line lets the one jump into the other",
        "`-fno-jump-tables`"),
    "unhandled": (
        "`refused 4 .. out 0x3E, r29` in `__init`",
        "a vector that may be enabled has no handler: avr-libc's default for it restarts the program, on the stack as it is",
        "a handler for it, or for all that have none: `ISR(BADISR_vect) { for (;;) ; }`; if none of them ever comes, `never @unhandled`"),
    "begins anew": (
        "the same, if a function jumps to address 0",
        "the program restarts by a jump to 0, on the stack as it is",
        "a reset by the watchdog: `wdt_enable(WDTO_15MS); for (;;) ;`"),
    "high byte": (
        "`refused 4 .. out 0x3E, r29` after `dec r29`, `inc r29` or `subi r29`",
        "a frame of 256, 512, .. bytes, which is moved by its high byte alone",
        "`frame @frames`; or a frame of another size: an array that is a byte smaller or greater, or a static one"),
    "sized": (
        "`refused 4 .. out 0x3E` elsewhere",
        "an array whose size is computed, or `alloca`",
        "an array of constant size"),
    "two stacks": (
        "`refused 4 .. out 0x3E` or `out 0x3D` with a byte from memory",
        "a switch of stacks, as a system with tasks does",
        "none: a bound is of one stack"),
    "low byte first": (
        "`refused 4` after a write of SPL before SPH",
        "start-up code written by hand, which writes SPL before SPH",
        "SPH first, then SPL, as avr-libc's start-up code does"),
    "tiny": (
        "`refused 4 .. out 0x3D` without `out 0x3E`",
        "`-mtiny-stack`, with which a frame is made by the low byte of the stack pointer alone",
        "build without `-mtiny-stack`"),
    "joined": (
        "`refused 2` of a function that no direct call leads back to; `4`, `5` or `6` elsewhere, if an `icall` or `ijmp` has no `jump` "
        "line",
        "a pointer that is one of some constants: their bits may join to a word that none of them is",
        "`jump FUNCTION N TARGET ..` for each such transfer"),
    "unfollowed": (
        "`refused 4` at another instruction",
        "`setjmp` and `longjmp`, a context switch, or assembly that moves the stack pointer",
        "none: such code is not accepted"),
    "written flash": (
        "`refused 5 .. opcode 95E8`",
        "`spm`: a boot loader, or a program that writes its flash",
        "none: such code is not accepted"),
    "device": (
        "`refused 5 .. opcode 940C` or `940E`",
        "`jmp` or `call` on a device that has none: the file was linked for another one",
        "`--device` with the device that it was linked for"),
    "group": (
        "`refused 5` with an opcode of `mul`, `movw`, `lpm` with a register, `elpm`, `eijmp` or `break`, which the device lacks",
        "a library or assembly for another device, or the file was linked for one",
        "libraries and assembly for this device; `--device` with the device that it was linked for"),
    "unsupported": (
        "`refused 5` with another opcode",
        "execution falls through into data, for example after a `noreturn` function that returns",
        "end the function with an endless loop"),
    "deep": (
        "`refused 6`",
        "the stack does not fit in SRAM: one frame at W, or at 0000 all that nests; or a loop pushes without an end",
        "smaller or static arrays; fewer handlers that enable interrupts"),
    "masks": (
        "`refused 7`",
        "interrupt masks are written through pointers that `store` lines let go to several registers, or with unknown bytes",
        "`-flto`, with which the compiler sees the registers; constants in the masks"),
    "array": (
        "`refused 8` in a loop",
        "a loop over a static array whose address is loaded just before its first store",
        "`free FUNCTION N` for the store"),
    "copy": (
        "`refused 8` at `st X+, r0` or `st Z+, r0`",
        "a copy of a `struct` or of some bytes by a loop that the compiler writes in place of `memcpy`",
        "`free FUNCTION N` for the store; `-fno-builtin-memcpy` helps with some"),
    "proved": (
        "`refused 8` at a site with a `prove` line",
        "the pointer of the store is not known",
        "a `store` line with the registers in place of the `prove` line"),
}
REFUSAL = re.compile(r"refused (\d) (\S+)(?: of (\d+))?(?: at ([0-9A-F]{4,5}))?(?: (.*))?$")


def parts(refusal: str) -> Tuple[str, str, Optional[str], Optional[str], Optional[str]]:
    """The number, the name, the vector, the word and the instruction of a refusal; None for what it has not."""
    found = REFUSAL.match(refusal)
    if found is None:
        raise ValueError(f"no refusal: {refusal}")
    return found[1], found[2], found[3], found[4], found[5]


OUT_SREG, IN_SREG, OUT_SPH, OUT_SPL, RETI = 0xBE0F, 0xB60F, 0xBE0E, 0xBE0D, 0x9518
NEAR = 8  # words around a write of SPL
STDIO = ("fputc", "fgetc", "fputs", "fputs_P", "puts", "puts_P", "fread", "fwrite", "ungetc")
JUMPERS = ("setjmp", "longjmp")
SKETCH = ("setup", "loop")  # what the `main` of Arduino's core calls; with -flto both become parts of it, or local


def of_jump(elf: Elf, name: str) -> str:
    if name in STDIO:
        return "stream"
    if name != "__tablejump2__":
        return "pointer"
    return "constructors" if candidates.or_none(constructors, elf) and not candidates.or_none(tables, elf) else "tables"


def of_recursion(elf: Elf, device: Device, word: int) -> str:
    """A function that calls itself by its name, and whose address is taken, is most likely the put function of a stream."""
    symbol = elf.symbol_at(2 * word)
    calls = [at for at, _ in opcodes.words_of(elf, symbol) if opcodes.call_target(elf, at) == word] if symbol else []
    return "put" if calls and any(elf.named(it) for it in STDIO) and word in candidates.addressed(elf, device) else "recursion"


def is_sketch(elf: Elf) -> bool:
    """Whether the file is an Arduino sketch that was built without -flto: `main` calls global functions of these names."""
    called = {opcodes.call_target(elf, at) for it in elf.named("main") for at, _ in opcodes.words_of(elf, it)}
    return all(any(it.is_global and it.address // 2 in called for it in elf.named(name)) for name in SKETCH)


def calls_by_pointer(elf: Elf, lines: Lines, entry: int) -> bool:
    """Whether a function, or one that it enters by name, calls through a pointer whose list the tool wrote."""
    functions = candidates.reached(elf, entry) | {entry}
    return any(kind == "jump" and (symbol := elf.symbol_at(2 * site)) and symbol.address // 2 in functions
               for site, kind in lines.written())


def needs_optimiser(elf: Elf, lines: Lines, number: str, word: int) -> bool:
    """Whether a refusal of a sketch most likely comes of calls through pointers that the compiler resolves with -flto."""
    if not is_sketch(elf) or number == RECURSION and word in candidates.reached(elf, word):
        return False
    entry = word if number == RECURSION else opcodes.jump_target(elf, word)
    return entry is not None and calls_by_pointer(elf, lines, entry)


def is_body(opcode: int) -> bool:
    """Whether an instruction is one of a handler's own work: neither saves nor gives back registers, and is neither its call nor its
    end."""
    return not (opcode & 0xFC0F == 0x900F or opcode & 0xFE0F in (OUT_SREG, IN_SREG) or opcodes.is_clr(opcode) or opcode & 0xFE0E == 0x940E
                or opcode & 0xF000 == 0xD000 or opcode == RETI)


def keeps_flags(elf: Elf, entry: int) -> bool:
    """Whether a handler, or what it calls, writes SREG with a byte from memory, and nothing of it is `sei`."""
    functions = [it for it in elf.code if it.address // 2 in candidates.reached(elf, entry) | {entry}]
    words = [it for symbol in functions for it in opcodes.words_of(elf, symbol)]
    found = any(opcode & 0xFE0F == OUT_SREG and registers.is_from_memory(elf, at) for at, opcode in words)
    return found and not any(opcode == opcodes.SEI for _, opcode in words)


def of_re_entry(elf: Elf, word: int) -> str:
    """A handler that does nothing but call a handler was merged with it; one that begins with `sei` is an ISR_NOBLOCK."""
    target = opcodes.jump_target(elf, word)
    symbol = elf.symbol_at(2 * target) if target is not None else None
    if target is not None and elf.word(target) == opcodes.SEI:
        return "noblock"
    if target is None or symbol is None:
        return "re-entry"
    for at, _ in opcodes.words_of(elf, symbol):
        called = opcodes.call_target(elf, at)
        other = elf.symbol_at(2 * called) if called is not None else None
        if called is not None and other and other.name.startswith("__vector_") and other.address == 2 * called:
            return "by name" if any(is_body(opcode) for _, opcode in opcodes.words_of(elf, symbol)) else "merged"
    return "kept flags" if keeps_flags(elf, target) else "re-entry"


def begins_anew(elf: Elf, device: Device, lines: Lines) -> bool:
    """Whether a function jumps to address 0 or calls it, and no vector without a handler leads there unless a `never` line names it."""
    jumps = any(0 in (opcodes.jump_target(elf, at), opcodes.call_target(elf, at)) for it in elf.code if it.is_function
                for at, _ in opcodes.words_of(elf, it))
    return jumps and all(lines.has(device.vector_word(it), "never") for it in device.vectors if is_unhandled(elf, device, it))


def of_low_byte(elf: Elf, word: int, name: str) -> str:
    """A write of SPL is told by where its byte is from, and by writes of SPH near it."""
    near = [elf.word(at) & 0xFE0F == OUT_SPH for at in range(max(word - NEAR, 0), word + NEAR)]
    if name in JUMPERS:
        return "unfollowed"
    if registers.is_from_memory(elf, word):
        return "two stacks"
    return "low byte first" if any(near[NEAR:]) else "unfollowed" if any(near) else "tiny"


def is_low_first(elf: Elf, word: int) -> bool:
    """Whether of the writes of SPL and SPH just before a word that of SPH is the last, and one of SPL came before."""
    found = [opcode & 0xFE0F for _, opcode in candidates.before(elf, word, NEAR) if opcode & 0xFE0F in (OUT_SPL, OUT_SPH)]
    return found[:1] == [OUT_SPH] and OUT_SPL in found


def of_stack_pointer(elf: Elf, device: Device, lines: Lines, word: int, name: str) -> str:
    """A write of the stack pointer is told by its function, and by what was done to r29 before."""
    symbol = elf.symbol_at(2 * word)
    if symbol and name == "__epilogue_restores__":
        begin, end = elf.extent(symbol)
        if not any(begin <= 2 * it < end for it in lines.sites("frame")):
            return "prologues"
        if not device.has_sph:
            return "sized"
        if not lines.has_pairs():
            return "division"
        return "sized" if all(registers.keeps_zero(elf, it) for it in elf.code if not it.name.startswith("__")) else "zero register"
    if candidates.is_start_up(elf, word):
        return "begins anew" if begins_anew(elf, device, lines) else "unhandled"
    if name in JUMPERS:
        return "unfollowed"
    if registers.is_from_memory(elf, word):
        return "two stacks"
    before = [elf.word(at) for at in range(max(word - 4, 0), word)]
    return "high byte" if any(opcodes.moves_high_byte(opcode) for opcode in before) else "sized"


def is_joined(elf: Elf, lines: Lines) -> bool:
    """Whether some transfer through a pointer has no `jump` line."""
    return any(not lines.has(it, "jump") for it in candidates.indirect(elf))


def of_opcode(elf: Elf, device: Device, lines: Lines, text: str) -> str:
    known = {"opcode 95E8": "written flash", "opcode 940C": "device", "opcode 940E": "device"}.get(text)
    if known or is_joined(elf, lines):
        return known or "joined"
    group = opcodes.group(int(text.partition(" ")[2] or "0", 16))
    return "group" if group and group not in device.groups and not device.is_first() else "unsupported"


def goes_through_tables(elf: Elf, lines: Lines) -> bool:
    """Whether a `jump` line lets the tables of several functions be jumped through."""
    sites = [it for it in lines.sites("jump") if (symbol := elf.symbol_at(2 * it)) and symbol.name == "__tablejump2__"]
    owners = {symbol.address for site in sites for it in lines.of(site, "jump") & candidates.or_none(tables, elf)
              if (symbol := elf.symbol_at(2 * it))}
    return len(owners) > 1


def cure(elf: Elf, device: Device, refusal: str, lines: Lines) -> Tuple[str, Optional[int]]:
    """The name of the row of CURES for a refusal under some lines, and the word that it names (None where it names none)."""
    number, _, _, place, text = parts(refusal)
    word, text = int(place, 16) if place else None, text or ""
    if number == TOO_LARGE or word is None:
        return "masks" if number == TOO_LARGE else "deep" if number == TOO_DEEP else "unfollowed", word
    symbol = elf.symbol_at(2 * word)
    name, moves = symbol.name if symbol else "", text.startswith("out 0x3E" if device.has_sph else "out 0x3D")
    if number == UNRESOLVED_JUMP:
        return of_jump(elf, name), word
    if number in (RECURSION, RE_ENTRY) and needs_optimiser(elf, lines, number, word):
        return "sketch", word
    if number == RE_ENTRY:
        return of_re_entry(elf, word), word
    if number == UNSUPPORTED:
        return of_opcode(elf, device, lines, text), word
    if number == UNKNOWN_POINTER:
        return "proved" if lines.has(word, "prove") else "copy" if text.endswith("+, r0") else "array", word
    if number in (RECURSION, UNTRACKED_SP) and not moves and goes_through_tables(elf, lines):
        return "two tables", word
    if number == RECURSION and word not in candidates.reached(elf, word) and is_joined(elf, lines):
        return "joined", word
    if number == RECURSION:
        return of_recursion(elf, device, word), word
    if number == UNTRACKED_SP and moves:
        return of_stack_pointer(elf, device, lines, word, name), word
    if number == UNTRACKED_SP and text.startswith("out 0x3D"):
        return of_low_byte(elf, word, name), word
    if number == UNTRACKED_SP and device.has_sph and is_low_first(elf, word):
        return "low byte first", word
    is_other = name not in JUMPERS and is_joined(elf, lines)
    return "joined" if is_other and word else "deep" if number == TOO_DEEP else "unfollowed", word


def table() -> List[str]:
    """The lines of the table in Markdown."""
    return ["| Text and place | Usual cause | Cure |", "|---|---|---|", *(f"| {' | '.join(row)} |" for row in CURES.values())]
