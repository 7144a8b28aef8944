"""The tool `place`."""

from __future__ import annotations

import sys

from stackcheck_tools.firmware import debug_lines
from stackcheck_tools.firmware.elf import Elf
from stackcheck_tools.habits import FAULTS, MISUSE, asked, misused, tell, usage_of

DOCUMENT = """Prints the function, the byte offset in it and the source line of each word address.

usage: place FW W ..      W: a word address in hexadecimal, as stackbound prints it
       place FW -         word addresses are read from standard input, one at the start of each line

Prints `W FUNCTION+OFFSET FILE:LINE` for each word. OFFSET counts bytes from the function's first instruction. FUNCTION is `-` if no symbol
lies before the word, FILE:LINE is `-` without debug information (`-g`). avr-addr2line is used, if installed, for tables that this tool
cannot read. Status 0; 3: usage error or unreadable file.
"""


def place(elf: Elf, word: int) -> str:
    """Function, offset and source line of a word address."""
    symbol = elf.symbol_at(2 * word)
    where = f"{symbol.name}+{2 * word - symbol.address}" if symbol else "-"
    return f"{where} {debug_lines.of(elf).at(2 * word) or '-'}"


def main() -> int:
    words = sys.argv[1:]
    if asked("place", DOCUMENT, words):
        return 0
    if len(words) < 2 or words[0].startswith("-"):
        misused("place", "a firmware and a word address are needed", usage_of(DOCUMENT))
    given = [line.split()[0] for line in sys.stdin if line.strip()] if words[1:] == ["-"] else words[1:]
    try:
        elf = Elf(words[0])
        numbers = [int(word, 16) for word in given]
    except ValueError:
        misused("place", "a word address has hexadecimal digits alone", usage_of(DOCUMENT))
    except FAULTS as fault:
        tell("place", fault)
        return MISUSE
    for number in numbers:
        print(f"{elf.chip.word(number)} {place(elf, number)}")
    return 0
