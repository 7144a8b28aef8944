"""Units of a chip whose registers no header names, with vectors whose enable bits are there: the touch controllers. A firmware that writes
none of these registers uses no such unit."""

from __future__ import annotations

from typing import Iterator

from stackcheck_tools.analysis.node_states import NodeStates
from stackcheck_tools.firmware import candidates, effects
from stackcheck_tools.firmware.elf import Elf

SBI_CBI = 0x9800  # with the bit that tells them apart masked out


def written(elf: Elf, states: NodeStates) -> Iterator[int]:
    """Yields the data addresses that instructions write by name, or through a pointer that the certificate knows."""
    for code in candidates.code(elf):
        for word, opcode in code:
            effect = effects.at(elf, word)
            if isinstance(effect, (effects.Output, effects.StoreAt)):
                yield effect.address
            elif opcode & 0xFD00 == SBI_CBI:
                yield (opcode >> 3 & 31) + 0x20
            elif isinstance(effect, effects.Store):
                yield from (number + effect.more for number in states.known(word, effect.pair))


def uses_nameless(elf: Elf, states: NodeStates) -> bool:
    """Whether a firmware writes a register that no header names."""
    return any(map(elf.chip.is_nameless, written(elf, states)))
