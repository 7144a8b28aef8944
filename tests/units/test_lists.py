"""The lists of calls through pointers, and the lines of assumption files that have them."""

import unittest
from typing import FrozenSet, Set

from stored import path
from stackcheck_tools.dataflow import calls
from stackcheck_tools.firmware import opcodes, records
from stackcheck_tools.firmware.devices import default, of_class
from stackcheck_tools.firmware.elf import Elf
from stackcheck_tools.spec.lines import Lines, spec_line
from stackcheck_tools.spec.spec import MOST_ITEMS, Spec, SpecFault

NONE: FrozenSet[int] = frozenset()
CHIP = default()


def names(elf: Elf, words: Set[int]) -> Set[str]:
    return {symbol.name for it in words if (symbol := elf.symbol_at(2 * it))}


class Complete(unittest.TestCase):
    def of(self, name: str, function: str) -> Set[str]:
        """The names of the complete list of the first call through a pointer in a function."""
        elf = Elf(path(name))
        site = opcodes.sites(elf, elf.named(function)[0], opcodes.is_indirect)[0]
        found = calls.of_site(elf, elf.chip, site, NONE)
        self.assertIsNotNone(found)
        return names(elf, set(found.words)) if found else set()

    def test_records_name_what_is_taken_and_no_more(self) -> None:
        self.assertEqual(self.of("chance.records.elf", "one"), {"near", "far"})

    def test_a_search_takes_numbers_for_addresses(self) -> None:
        self.assertLessEqual({"near", "far", "one", "two"}, self.of("chance.elf", "one"))

    def test_first_lists_have_nothing_that_records_do_not_name(self) -> None:
        for name, wanted in (("chance.records.elf", {"near", "far"}), ("chance.elf", {"near", "far", "one", "two"})):
            elf = Elf(path(name))
            site = opcodes.sites(elf, elf.named("two")[0], opcodes.is_indirect)[0]
            self.assertEqual(names(elf, calls.first_targets(elf, elf.chip, site)), wanted)

    def test_a_file_without_records_has_none(self) -> None:
        self.assertIsNone(records.taken(Elf(path("chance.elf"))))


class Written(unittest.TestCase):
    def test_a_text_is_read_and_written_alike(self) -> None:
        text = "pairs\nmasks\njump 0010 0020 0030\nstore 0040 006E\nnever 0020\nrecur 0050 12\n"
        lines = Lines.read(CHIP, text)
        self.assertEqual(sorted(lines.text().splitlines()), sorted(text.splitlines()))
        self.assertEqual(lines.of(0x10, "jump"), {0x20, 0x30})
        self.assertEqual(lines.written(), [])

    def test_given_lines_do_not_grow(self) -> None:
        lines = Lines.read(CHIP, "jump 0010 0020\n")
        self.assertFalse(lines.may_add(0x10, "jump", {0x30}))
        self.assertTrue(lines.may_add(0x12, "jump", set(range(MOST_ITEMS))))
        self.assertFalse(lines.may_add(0x12, "jump", set(range(MOST_ITEMS + 1))))

    def test_words_have_the_digits_of_the_device(self) -> None:
        lines = Lines.read(of_class("atmega2560"), "jump 00010 10020\nstore 00012 005B\n")
        self.assertEqual(lines.text(), "jump 00010 10020\nstore 00012 005B\n")

    def test_other_lines_are_made_and_these_stay(self) -> None:
        lines = Lines(CHIP)
        other = lines.add(0x10, "jump", {1})
        self.assertIs(other.add(0x10, "jump", {1}), other)
        self.assertEqual((lines.text(), other.text()), ("", "jump 0010 0001\n"))
        self.assertEqual(other.drop(0x10, "jump"), lines)
        other.of(0x10, "jump").clear()
        self.assertEqual(other.text(), "jump 0010 0001\n")

    def test_a_line_of_a_spec_says_the_same(self) -> None:
        elf = Elf(path("chance.records.elf"))
        site = opcodes.sites(elf, elf.named("one")[0], opcodes.is_indirect)[0]
        lines = Lines(CHIP).put(site, "jump", {it.address // 2 for name in ("near", "far") for it in elf.named(name)})
        text = spec_line(elf, elf.chip, lines, site, "jump")
        self.assertEqual(text, "jump one 1 near far")
        self.assertEqual(Spec(elf, str(text), elf.chip).text(), lines.text())

    def test_a_line_that_meets_no_site_is_a_fault(self) -> None:
        with self.assertRaises(SpecFault):
            Spec(Elf(path("chance.elf")), "jump one 2 near\n")


if __name__ == "__main__":
    unittest.main()
