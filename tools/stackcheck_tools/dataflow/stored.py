"""The constants of two bytes that functions store in memory, as drivers do with addresses of registers."""

from __future__ import annotations

import functools
from typing import Dict, FrozenSet, Iterator, Optional, Set, Tuple

from stackcheck_tools.dataflow import loaded
from stackcheck_tools.dataflow.loaded import CONSTANT, Pair
from stackcheck_tools.firmware import effects
from stackcheck_tools.firmware.elf import Elf

At = Tuple[Optional[Pair], int]  # to what a pointer leads and how far from there, or an address


def bytes_stored(elf: Elf, address: int) -> Iterator[Tuple[At, int]]:
    """Yields where the function at a byte address stores constants, and which."""
    function = loaded.of_function(elf, address)
    for word, state in function.before.items() if function is not None else ():
        effect = effects.at(elf, word)
        if not isinstance(effect, (effects.Store, effects.StoreAt)) or state.bytes[effect.of].kind != CONSTANT:
            continue
        if isinstance(effect, effects.StoreAt):
            yield (None, effect.address), state.bytes[effect.of].number
        else:
            pair, more = loaded.pair_of(state.bytes[effect.pair], state.bytes[effect.pair + 1])
            yield (pair, more + effect.more), state.bytes[effect.of].number


@functools.lru_cache(maxsize=None)
def numbers(elf: Elf) -> FrozenSet[int]:
    """The numbers of two constants that one function stores beside each other."""
    found: Set[int] = set()
    for symbol in elf.code:
        held: Dict[At, Set[int]] = {}
        for at, byte in bytes_stored(elf, symbol.address) if symbol.is_function else ():
            held.setdefault(at, set()).add(byte)
        for (pair, more), lows in held.items():
            found |= {high << 8 | low for high in held.get((pair, more + 1), ()) for low in lows}
    return frozenset(found)
