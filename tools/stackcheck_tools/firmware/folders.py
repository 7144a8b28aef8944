"""The folders in which a compiler ran, by the line tables of their units: DWARF of versions 2 to 4, whose tables have none of their own."""

from __future__ import annotations

import struct
from typing import Dict

from stackcheck_tools.firmware.elf import Elf
from stackcheck_tools.firmware.inlined import UNIT, entries

TABLE, FOLDER = 0x10, 0x1B  # attributes of a unit: its line table, and the folder of the compiler


def by_table(elf: Elf) -> Dict[int, str]:
    """The folder of each line table by its offset; none without debug information, or as far as it can be read."""
    found: Dict[int, str] = {}
    try:
        for it in entries(elf, (UNIT,)):
            if TABLE in it.attributes and FOLDER in it.attributes:
                found[it.attributes[TABLE].number()] = str(it.attributes[FOLDER].value)
    except (struct.error, ValueError, IndexError, KeyError):
        pass
    return found
