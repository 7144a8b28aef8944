"""What leads to a refusal in this firmware, by functions and source lines."""

from __future__ import annotations

from typing import Dict, Iterator, List, Optional, Set, Tuple

from stackcheck_tools.analysis import registers
from stackcheck_tools.analysis.cures import RE_ENTRY, RECURSION, parts
from stackcheck_tools.analysis.locations import of_word
from stackcheck_tools.analysis.telling import line_of_spec
from stackcheck_tools.analysis.trials import handled
from stackcheck_tools.finding import Related
from stackcheck_tools.firmware import candidates, opcodes
from stackcheck_tools.firmware.devices import Device
from stackcheck_tools.firmware.elf import Elf
from stackcheck_tools.firmware.firmware import Firmware
from stackcheck_tools.spec.lines import Lines

OUT_SREG, RETI, SBI = 0xBE0F, 0x9518, 0x9A00
MOST_REASONS, NEAR, GUARD = 8, 5, 6
# causes of which the places of this firmware tell more than a row of the table: name, cause and cure
SET_AGAIN = ("set again", "its own enable bit is set again before it ends, while interrupts are enabled",
             "set the bit again only after its `cli()`, or where it cannot run; no step may set it meanwhile, even on paths that cannot "
             "run")
STAYS = ("stays enabled", "it enables interrupts while its own vector counts as enabled, which nothing in the handler changes",
         "do not enable interrupts while this handler runs")


class Step:
    """A way from one function to another: the place, and the line of an assumption file where it is a `jump` line that this tool wrote."""

    def __init__(self, site: int, target: int, own: Optional[str]) -> None:
        self.site, self.target, self.own = site, target, own


def steps(firmware: Firmware, lines: Lines) -> Dict[int, List[Step]]:
    """By its first word, what each function enters: by name, and by `jump` lines."""
    elf = firmware.elf
    found: Dict[int, List[Step]] = {}
    for symbol in elf.code:
        held = found.setdefault(symbol.address // 2, [])
        for at, opcode in opcodes.words_of(elf, symbol):
            call, jump = opcodes.call_target(elf, at), opcodes.jump_target(elf, at)
            target = jump if call is None else call
            other = elf.symbol_at(2 * target) if target is not None else None
            if other and (other.address != symbol.address or call == symbol.address // 2):
                held.append(Step(at, other.address // 2, None))
            elif opcodes.is_indirect(opcode):
                own = None if lines.is_given(at, "jump") else line_of_spec(firmware, lines, at, "jump") or "jump"
                held += [Step(at, it, own) for it in sorted(lines.of(at, "jump"))]
    return found


def way_back(graph: Dict[int, List[Step]], word: int) -> List[Tuple[int, Step]]:
    """A shortest way from a function to itself; nothing where there is none."""
    came: Dict[int, Tuple[int, Step]] = {}
    left = [word]
    while left:
        at = left.pop(0)
        for it in graph.get(at, ()):
            if it.target == word:
                way = [(at, it)]
                while way[0][0] != word:
                    way.insert(0, came[way[0][0]])
                return way
            if it.target not in came:
                came[it.target] = at, it
                left.append(it.target)
    return []


def reason(firmware: Firmware, text: str, word: Optional[int] = None) -> Related:
    """What leads to a refusal, at the place of a word if it has one."""
    return Related("reason", text) if word is None else Related("reason", f"{text} at {firmware.place(word)}", of_word(firmware, word))


def of_recursion(firmware: Firmware, lines: Lines, word: int) -> Iterator[Related]:
    """The way on which a function comes back to itself, with the `jump` lines of this tool on it."""
    for at, it in way_back(steps(firmware, lines), word):
        how = f", by a line of this tool, which lists all that may be called: `{it.own}`" if it.own else ""
        text = f"{firmware.function(at)} enters {firmware.function(it.target)} at {firmware.place(it.site)}{how}"
        yield Related("reason", text, of_word(firmware, it.site))


def reached(graph: Dict[int, List[Step]], word: int) -> Set[int]:
    """A function with all that it enters."""
    found, left = {word}, [word]
    while left:
        for it in graph.get(left.pop(), ()):
            if it.target not in found:
                found.add(it.target)
                left.append(it.target)
    return found


def written_address(firmware: Firmware, lines: Lines, word: int) -> Optional[int]:
    """The data address that an instruction writes; None where it isn't known."""
    opcode = firmware.elf.word(word)
    if opcode & 0xFE0F == 0x9200:
        return firmware.elf.word(word + 1)
    if opcode & 0xF800 == 0xB800:
        return opcodes.io_address(opcode)
    if opcode & 0xFF00 == SBI:
        return (opcode >> 3 & 31) + 0x20
    listed = lines.of(word, "store")
    return min(listed) if len(listed) == 1 else None


def may_set(elf: Elf, word: int, mask: int, begin: int) -> bool:
    """Whether a write may set a bit of a mask, by what was done to the register just before: `ori`, `andi` or `ldi`."""
    opcode = elf.word(word)
    if opcode & 0xFF00 == SBI:
        return bool(mask >> (opcode & 7) & 1)
    register = opcode >> 4 & 31
    for at, other in candidates.before(elf, word, NEAR):
        if at < begin:
            break
        byte, is_same = other & 15 | other >> 4 & 0xF0, 16 + (other >> 4 & 15) == register
        if is_same and (0xE000 == other & 0xF000 or byte & mask and other & 0xF000 == 0x6000 or not byte & mask
                        and other & 0xF000 == 0x7000):
            return other & 0xF000 != 0x7000 and bool(byte & mask)
    return register != 1  # r1 is 0 in compiled code


def setters(firmware: Firmware, lines: Lines, functions: Set[int], vector: int) -> Iterator[Tuple[int, str]]:
    """The words in some functions that may set a vector's enable bit, with the registers."""
    places = {it.address: it for it in firmware.device.rows[vector].places}
    for symbol in firmware.elf.code:
        if symbol.address // 2 in functions:
            for at, _ in opcodes.words_of(firmware.elf, symbol):
                address = written_address(firmware, lines, at)
                found = None if address is None else places.get(address)
                if found and may_set(firmware.elf, at, found.mask, symbol.address // 2):
                    yield at, firmware.device.register_name(found.address)


def openers(firmware: Firmware, functions: Set[int], entry: int) -> Iterator[Tuple[int, str]]:
    """The words in some functions that let interrupts in, with the instruction; the end of the handler itself isn't one."""
    for symbol in firmware.elf.code:
        if symbol.address // 2 not in functions:
            continue
        words = list(opcodes.words_of(firmware.elf, symbol))
        for n, (at, opcode) in enumerate(words):
            if opcode == opcodes.SEI:
                yield at, "sei"
            elif opcode & 0xFE0F == OUT_SREG and not is_own_end(words, n, symbol.address // 2 == entry):
                yield at, f"out SREG, r{opcode >> 4 & 31}"
            elif opcode == RETI and symbol.address // 2 != entry:
                yield at, "reti"


def is_own_end(words: List[Tuple[int, int]], n: int, is_handler: bool) -> bool:
    """Whether a write of SREG gives back the flags at a handler's end, or is the middle of a move of the stack pointer."""
    after = [opcode for _, opcode in words[n + 1:n + 12]]
    if after[:1] and after[0] & 0xFE0F == 0xBE0D:  # out SPL
        return True
    return is_handler and RETI in after


def is_guarded(elf: Elf, word: int) -> bool:
    """Whether a variable's value decides, a few instructions before, whether a word is come to."""
    words = candidates.before(elf, word, 24)
    loads = [n for n, (_, opcode) in enumerate(words) if opcode & 0xFE0F == 0x9000]
    return any(0xF000 <= words[n - back][1] < 0xF800 for n in loads for back in range(1, GUARD) if n - back >= 0)


def stays_enabled(device: Device, vector: int) -> str:
    """Why a vector stays enabled whatever a handler does; nothing where its enable bit is known."""
    row = device.rows[vector]
    if device.is_open(vector):
        return f"no enable bit of {device.vectors[vector]} is known, so it counts as always enabled"
    names = " and ".join(device.register_name(it.address) for it in row.places)
    if not row.stays:
        return ""
    return (f"{device.vectors[vector]} has several enable bits ({names}), so it counts as enabled once one was set, "
            "even after it is cleared")


def of_re_entry(firmware: Firmware, lines: Lines, vector: int) -> Iterator[Related]:
    """Each place that lets interrupts in while a handler runs, and each that may set its enable bit then: in the handler, or in one that
    comes meanwhile."""
    elf, device = firmware.elf, firmware.device
    entry = opcodes.jump_target(elf, device.vector_word(vector))
    if entry is None:
        return
    graph = steps(firmware, lines)
    own = reached(graph, entry)
    opened = list(openers(firmware, own, entry))
    yield from (reason(firmware, f"{firmware.function(at)} enables interrupts (`{text}`)", at) for at, text in opened)
    if stays := stays_enabled(device, vector):
        yield reason(firmware, stays)
        return
    sets = [(at, name, "") for at, name in setters(firmware, lines, own, vector)]
    for other in handled(elf, device):
        target = opcodes.jump_target(elf, device.vector_word(other))
        if other != vector and target is not None:
            sets += [(at, name, device.vectors[other]) for at, name in setters(firmware, lines, reached(graph, target) - own, vector)]
    for at, name, by in sets:
        function = firmware.function(at)
        why = "" if not by else ", which may come meanwhile," if function == by else f", called by {by}, which may come meanwhile,"
        yield reason(firmware, f"{function}{why} sets {name} again", at)
    if any(is_guarded(elf, at) for at in [*(at for at, _ in opened), *(at for at, *_ in sets)]):
        yield reason(firmware, "values of variables are not followed, so a flag that guards this does not count")


def of_cause(firmware: Firmware, name: str) -> Iterator[Related]:
    """What leads to a refusal by its cause: the functions that don't clear r1, the jumps to address 0."""
    elf = firmware.elf
    for symbol in {it.address: it for it in reversed(elf.code)}.values():
        if name == "zero register" and not symbol.name.startswith("__") and not registers.keeps_zero(elf, symbol):
            yield Related("reason", f"{firmware.name(symbol)} computes with r1 and does not clear it",
                          of_word(firmware, symbol.address // 2))
        for at, _ in opcodes.words_of(elf, symbol) if name == "begins anew" and symbol.is_function else ():
            if 0 in (opcodes.jump_target(elf, at), opcodes.call_target(elf, at)):
                yield reason(firmware, f"{firmware.name(symbol)} goes to address 0", at)


def reasons(firmware: Firmware, lines: Lines, refusal: str) -> List[Related]:
    """What leads to a refusal here: of recursion the way back, of a re-entry the places that let it in."""
    number, _, vector, place, _ = parts(refusal)
    if not firmware.elf.code:
        return []
    found: Iterator[Related] = iter(())
    if number == RECURSION and place:
        found = of_recursion(firmware, lines, int(place, 16))
    elif number == RE_ENTRY and vector:
        found = of_re_entry(firmware, lines, int(vector))
    told = list(dict.fromkeys(found))
    more = len(told) - MOST_REASONS
    return told[:MOST_REASONS] + ([reason(firmware, f"and {more} more")] if more > 0 else [])


def overriding(name: str, told: List[Related]) -> Optional[Tuple[str, str, str]]:
    """Name, cause and cure where the places tell more than the usual row does."""
    if name in ("re-entry", "noblock") and any(" counts as " in it.message for it in told):
        return STAYS
    return SET_AGAIN if name == "re-entry" and any(" again at " in it.message for it in told) else None
