"""What no flag tells of a firmware: a stack that is used before SP is set, a heap that shares the room, and, where the line `masks` doesn't
stand, writes of the bit that moves the vectors."""

from __future__ import annotations

from typing import Iterator, List, NamedTuple, Optional, Set

from stackcheck_tools.analysis import followed
from stackcheck_tools.analysis.kinds import MOVES, UNSET
from stackcheck_tools.analysis.node_states import NodeStates
from stackcheck_tools.firmware import effects, opcodes
from stackcheck_tools.firmware.candidates import before
from stackcheck_tools.firmware.devices import Device, Place
from stackcheck_tools.firmware.elf import Elf
from stackcheck_tools.firmware.firmware import Firmware

ALLOCATORS = ("malloc", "calloc", "realloc", "_Znwj", "_Znaj")
SPL = 0x5D
READ_BACK = 6  # instructions before a write in which its register is read


MOVED = "may move the interrupt vectors (IVSEL); the bound takes them to be at 0"


class Warned(NamedTuple):
    """A word of which no flag speaks, the kind of the warning, and its text."""

    word: int
    kind: str
    text: str


def heap(elf: Elf) -> Optional[str]:
    """The name of the function that takes memory from the room, where one is linked."""
    return next((name for name in ALLOCATORS if name in elf.all), None)


def writes(elf: Elf, states: NodeStates, word: int, address: int) -> bool:
    """Whether an instruction writes an address, by name or through a pointer that is known."""
    effect = effects.at(elf, word)
    if isinstance(effect, (effects.Output, effects.StoreAt)):
        return effect.address == address
    return states.is_fixed(word) and states.may_write(word, address)


def entered_aside(elf: Elf, word: int) -> Set[int]:
    """The words of a function to which another one than that before leads."""
    symbol = elf.symbol_at(2 * word)
    code = list(opcodes.words_of(elf, symbol)) if symbol else []
    return {to for at, opcode in code for to in opcodes.following(elf, at) if to != at + opcodes.length(opcode)}


def gives_back(elf: Elf, word: int, place: Place) -> bool:
    """Whether a write gives back what was read from its register just before, in which `ori` and `andi` have set none of these bits."""
    write, aside, last = effects.at(elf, word), entered_aside(elf, word), word
    register = write.of if isinstance(write, (effects.Output, effects.StoreAt, effects.Store)) else None
    for at, _ in before(elf, word, READ_BACK):
        effect = effects.at(elf, at)
        if last in aside:
            return False
        last = at
        if isinstance(effect, (effects.Output, effects.StoreAt)):
            continue
        if isinstance(effect, (effects.Input, effects.LoadAt)) and effect.to == register:
            return effect.address == place.address
        if not isinstance(effect, effects.Logic) or effect.of is not None or effect.to != register:
            return False
        if effect.operation == "or" and effect.byte & place.mask:
            return False
    return False


def moved_vectors(firmware: Firmware, certificate: str) -> Iterator[Warned]:
    """Yields each write by name whose byte may have the bit that moves the vectors, where neither the line `masks` nor the device has it
    followed; but for those that leave the bit as it was."""
    device: Device = firmware.device
    if device.moving is None or not device.is_first() or "\nmasks\n" in certificate:
        return
    states, bit = followed.states(firmware.elf, certificate), device.moving.mask.bit_length() - 1
    for word in sorted(states.at):
        if writes(firmware.elf, states, word, device.moving.address) and not gives_back(firmware.elf, word, device.moving):
            if states.may_store(word, bit):
                yield Warned(word, MOVES, MOVED)


def first_use(elf: Elf, states: NodeStates) -> Optional[int]:
    """The word of a first instruction on a way from reset that uses the stack or lets interrupts in before SPL is written; None if there is
    none."""
    seen: Set[int] = set()
    left = [0]
    while left:
        word = left.pop(0) % elf.chip.words
        if word in seen or writes(elf, states, word, SPL):
            continue
        if opcodes.uses_stack(elf.word(word)):
            return word
        seen.add(word)
        left += opcodes.following(elf, word)
    return None


def unset_pointer(firmware: Firmware, certificate: str) -> Iterator[Warned]:
    """Yields where the stack is used before SPL is written, on a device of which some chips may start with SP at 0."""
    device: Device = firmware.device
    word = None if device.is_first() else first_use(firmware.elf, followed.states(firmware.elf, certificate))
    if word is not None:
        registers, zero = ("SPH and SPL", "0000") if device.has_sph else ("SPL", "00")
        yield Warned(word, UNSET, f"uses the stack before SPL is written; the bound takes SP to be {device.last:04X} at reset, and older "
                                  f"chips start with {zero}: write {registers} first, as avr-libc's start-up code does, or judge this "
                                  f"place if the data sheet says {device.last:04X}")


def warnings(firmware: Firmware, certificate: str) -> List[Warned]:
    return [*moved_vectors(firmware, certificate), *unset_pointer(firmware, certificate)]
