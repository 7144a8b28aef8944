"""Places of a firmware as values."""

from __future__ import annotations

from typing import Iterable, Tuple

from stackcheck_tools.finding import Location
from stackcheck_tools.firmware.firmware import Firmware
from stackcheck_tools.firmware.opcodes import jump_target
from stackcheck_tools.firmware.paths import readable


def of_word(firmware: Firmware, word: int) -> Location:
    """The place of a word: its source line and its function, as far as the file tells them."""
    symbol, source = firmware.elf.symbol_at(2 * word), firmware.lines.source(2 * word)
    file, line = (readable(source[0]), source[1]) if source else (None, None)
    offset = 2 * word - symbol.address if symbol else None
    return Location(file, line, firmware.function(word) if symbol else None, offset, firmware.device.word(word))


def of_words(firmware: Firmware, words: Iterable[int]) -> Tuple[Location, ...]:
    return tuple(of_word(firmware, it) for it in words)


def of_vector(firmware: Firmware, word: int) -> Tuple[Location, ...]:
    """The handler of the vector at a word, and behind it the word in the vector table."""
    target = jump_target(firmware.elf, word)
    return of_words(firmware, [word] if target is None else [target, word])
