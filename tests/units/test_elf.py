"""ELF files: symbols, sections, extents, and what is no such file."""

import os
import tempfile
import unittest
from types import SimpleNamespace

from stored import path
from stackcheck_tools.firmware.elf import STUBS, Elf, NoElf


class Reading(unittest.TestCase):
    def test_symbols_have_their_places_sizes_and_binding(self) -> None:
        elf = Elf(path("sketch.elf"))
        setup = elf.named("setup")[0]
        self.assertTrue(setup.is_function and setup.is_global)
        self.assertIs(elf.symbol_at(setup.address), setup)
        self.assertIs(elf.symbol_at(setup.end() - 2), setup)
        self.assertEqual(elf.extent(setup), (setup.address, setup.address + setup.size))

    def test_a_function_that_the_optimiser_keeps_to_itself_is_not_global(self) -> None:
        self.assertEqual(Elf(path("sketch.cured.elf")).named("loop"), [])

    def test_the_device_is_that_of_the_note(self) -> None:
        self.assertEqual(Elf(path("clock.t85.elf")).chip.name, "attiny85")
        self.assertIsNone(Elf(path("plain.elf")).device())

    def test_words_go_round_at_the_end_of_flash(self) -> None:
        elf = Elf(path("late.elf"))
        self.assertEqual(elf.word(0), elf.word(elf.around))
        self.assertEqual(elf.word(0) & 0xFE0E, 0x940C)

    def test_stubs_are_functions_by_the_names_of_their_targets(self) -> None:
        flash = bytearray(8) + bytes.fromhex("0d943412" "0d940000" "0c943412")  # jmp 0x11234, jmp 0x10000, jmp 0x1234
        elf = SimpleNamespace(all=dict(zip(STUBS, (8, 20))), flash=flash, stub_at={})
        found = list(Elf.stubs(elf, {0x22468: "far", 0x2468: "near"}))
        self.assertEqual([(it.name, it.address, it.size, it.is_function) for it in found], [("far@stub", 8, 4, True), ("near@stub", 16, 4, True)])
        self.assertEqual([Elf.pointed(elf, it) for it in (0x22468, 0x20000)], [8, 0x20000])

    def test_static_data_ends_behind_bss(self) -> None:
        self.assertEqual(Elf(path("sensor.elf")).static_end(), 0x900 - 2007)

    def test_initial_values_are_found_by_data_address(self) -> None:
        elf = Elf(path("uart.elf"))
        address, size = elf.objects["uart0"]
        self.assertEqual(elf.at_data_address(address, 4), b"\xc1\x00\xc6\x00")
        self.assertIsNone(elf.at_data_address(address + 0x1000))


class Refusing(unittest.TestCase):
    def told(self, data: bytes) -> str:
        with tempfile.TemporaryDirectory() as folder:
            name = os.path.join(folder, "file")
            with open(name, "wb") as file:
                file.write(data)
            with self.assertRaises(NoElf) as fault:
                Elf(name)
        return str(fault.exception)

    def test_other_files_are_named(self) -> None:
        self.assertIn("is a file of Intel HEX", self.told(b":100000000C9434000C943E00"))
        self.assertIn("is a library", self.told(b"!<arch>\n"))
        self.assertIn("is not an AVR ELF file", self.told(b""))

    def test_a_file_that_is_cut_is_damaged(self) -> None:
        with open(path("late.elf"), "rb") as file:
            data = file.read()
        self.assertIn("is damaged", self.told(data[:-1000]))
        self.assertIn("is not an AVR ELF file", self.told(data[:40]))


if __name__ == "__main__":
    unittest.main()
