"""Source lines: a line table by hand, versions 2 and 5, stabs, and code without any."""

import struct
import unittest

from stored import path
from stackcheck_tools.firmware import debug_lines, dwarf_reader
from stackcheck_tools.firmware.elf import Elf


def table(program: bytes) -> bytes:
    """A line table of version 2 with one file, `a.c`, and this program; steps are of 2 bytes, a special code adds lines from -1 on."""
    lengths = bytes((0, 1, 1, 1, 1, 0, 0, 0, 1))
    head = bytes((2, 1, 0xFF, 4, 10)) + lengths + b"\0" + b"a.c\0\0\0\0" + b"\0"
    rest = struct.pack("<HI", 2, len(head)) + head + program
    return struct.pack("<I", len(rest)) + rest


SET_ADDRESS = b"\0\x03\x02\x40\x00"  # to 0040
END = b"\0\x01\x01"


class Tables(unittest.TestCase):
    def test_a_row_reaches_up_to_the_next(self) -> None:
        advance = b"\x03\x05\x01" + b"\x02\x03\x03\x01\x01"  # line 6, a row; 3 steps and one line on, a row
        rows = list(debug_lines.dwarf_rows(table(SET_ADDRESS + advance + b"\x02\x01" + END)))
        self.assertEqual(rows, [(0x40, 0x46, "a.c", 6), (0x46, 0x48, "a.c", 7)])

    def test_a_special_code_moves_address_and_line(self) -> None:
        special = bytes((10 + 4 * 2 + 3,))  # 2 steps, and 2 lines
        rows = list(debug_lines.dwarf_rows(table(SET_ADDRESS + b"\x01" + special + b"\x02\x01" + END)))
        self.assertEqual(rows, [(0x40, 0x44, "a.c", 1), (0x44, 0x46, "a.c", 3)])

    def test_a_table_of_another_version_is_passed_over(self) -> None:
        other = bytearray(table(END))
        other[4] = 9
        rows = list(debug_lines.dwarf_rows(bytes(other) + table(SET_ADDRESS + b"\x01\x02\x01" + END)))
        self.assertEqual(rows, [(0x40, 0x42, "a.c", 1)])

    def test_signed_numbers_go_back(self) -> None:
        self.assertEqual(dwarf_reader.Reader(b"\x7f").number(is_signed=True), -1)
        self.assertEqual(dwarf_reader.Reader(b"\xe5\x8e\x26").number(), 624485)


class Files(unittest.TestCase):
    def line(self, name: str, function: str) -> str:
        elf = Elf(path(name))
        return str(debug_lines.of(elf).at(elf.named(function)[0].address))

    def test_versions_2_and_5_and_stabs_tell_lines(self) -> None:
        self.assertEqual(self.line("late.elf", "main"), "late.c:9")
        self.assertEqual(self.line("five.elf", "main").partition(":")[0], "five.c")
        self.assertEqual(self.line("pointers.stabs.elf", "main").partition(":")[0], "pointers.c")

    def test_words_of_a_line_are_those_of_its_instructions(self) -> None:
        elf = Elf(path("late.elf"))
        lines = debug_lines.of(elf)
        words = lines.words("late.c", 14)
        self.assertTrue(words)
        self.assertEqual({lines.at(2 * it) for it in words}, {"late.c:14"})

    def test_a_file_without_lines_tells_none(self) -> None:
        self.assertFalse(debug_lines.of(Elf(path("timer.elf"))).has_rows)


if __name__ == "__main__":
    unittest.main()
