"""The functions of a firmware, also of one without names: there a function begins where a call or a vector leads."""

from __future__ import annotations

import bisect
import functools
from typing import Optional, Tuple

from stackcheck_tools.firmware import candidates, opcodes
from stackcheck_tools.firmware.elf import Elf, Symbol


@functools.lru_cache(maxsize=None)
def handlers(elf: Elf) -> Tuple[int, ...]:
    """The words to which the vectors lead, that of reset among them."""
    words = (number * elf.chip.vector_words for number in range(elf.chip.last_vector))
    return tuple(to for word in words if (to := opcodes.jump_target(elf, word)) is not None)


@functools.lru_cache(maxsize=None)
def nameless(elf: Elf) -> Tuple[Symbol, ...]:
    """The functions of a firmware without names, each up to the next one."""
    code = [it for words in candidates.code(elf) for it in words]
    begins = {0, *handlers(elf)} | {to for word, _ in code if (to := opcodes.call_target(elf, word)) not in (None, word + 1, word + 2)}
    ordered = sorted(2 * it for it in begins if it is not None and 2 * it < elf.flash_end)
    return tuple(Symbol("", begin, end - begin, True, "") for begin, end in zip(ordered, [*ordered[1:], elf.flash_end]))


@functools.lru_cache(maxsize=None)
def begins(elf: Elf) -> Tuple[int, ...]:
    return tuple(it.address for it in nameless(elf))


def at(elf: Elf, address: int) -> Optional[Symbol]:
    """The function in which a byte address lies; None where none is there."""
    if elf.code:
        return elf.symbol_at(address)
    number = bisect.bisect_right(begins(elf), address) - 1
    found = nameless(elf)[number] if number >= 0 else None
    return found if found is not None and address < found.end() else None
