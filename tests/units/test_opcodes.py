"""Instructions by their opcodes."""

import unittest
from types import SimpleNamespace
from typing import Dict

import stored

stored.use_tools()
from stackcheck_tools.firmware import opcodes  # noqa: E402


class Flash:
    """Words of flash, FFFF where none is given."""

    def __init__(self, words: Dict[int, int], count: int = 0x4000) -> None:
        self.words, self.chip = words, SimpleNamespace(words=count)

    def word(self, word: int) -> int:
        return self.words.get(word, 0xFFFF)


class Opcodes(unittest.TestCase):
    def test_four_instructions_have_two_words(self) -> None:
        two = [it for it in range(0x10000) if opcodes.length(it) == 2]
        self.assertEqual(len(two), 32 + 32 + 64 + 64)  # lds, sts, jmp, call
        self.assertTrue(all(it & 0xFC0F == 0x9000 or it & 0xFE0C == 0x940C for it in two))

    def test_relative_jumps_and_calls_lead_forth_and_back(self) -> None:
        flash = Flash({0x10: 0xC001, 0x11: 0xCFFF, 0x12: 0xDFFE, 0x13: 0x940E, 0x14: 0x0123, 0x15: 0x940C, 0x16: 0x4001})
        self.assertEqual(opcodes.jump_target(flash, 0x10), 0x12)
        self.assertEqual(opcodes.jump_target(flash, 0x11), 0x11)
        self.assertEqual(opcodes.call_target(flash, 0x12), 0x11)
        self.assertEqual(opcodes.call_target(flash, 0x13), 0x123)
        self.assertEqual(opcodes.jump_target(flash, 0x15), 1)
        self.assertIsNone(opcodes.call_target(flash, 0x10))

    def test_a_long_target_has_22_bits(self) -> None:
        words = {0: 0x940D, 1: 0x2345, 2: 0x95FF, 3: 0xFFFF}
        self.assertEqual(opcodes.jump_target(Flash(words, 0x20000), 0), 0x12345)
        self.assertEqual(opcodes.jump_target(Flash(words), 0), 0x2345)
        self.assertEqual(opcodes.call_target(Flash(words, 0x20000), 2), 0x1FFFF)

    def test_transfers_through_pointers(self) -> None:
        found = [it for it in range(0x10000) if opcodes.is_indirect(it)]
        self.assertEqual(found, [opcodes.IJMP, opcodes.EIJMP, opcodes.ICALL, opcodes.EICALL])
        self.assertEqual([opcodes.group(it) for it in found], [None, "eijmp", None, "eijmp"])
        self.assertEqual([opcodes.group(it) for it in (0x95D8, 0x9006, 0x9007)], ["elpm", "elpmx", "elpmx"])

    def test_what_may_follow_an_instruction(self) -> None:
        flash = Flash({0: 0xF409, 1: 0xF3F1, 2: 0x1301, 3: 0x9000, 4: 0x0100, 5: opcodes.IJMP, 6: 0xC000})
        self.assertEqual(opcodes.following(flash, 0), [1, 2])  # brne
        self.assertEqual(opcodes.following(flash, 1), [2, 0])  # breq back
        self.assertEqual(opcodes.following(flash, 2), [3, 5])  # cpse over lds
        self.assertEqual(opcodes.following(flash, 3), [5])
        self.assertEqual(opcodes.following(flash, 5), [])
        self.assertEqual(opcodes.following(flash, 6), [7])

    def test_stores_through_pointers(self) -> None:
        stores = [0x8200, 0x8208, 0x920C, 0x920D, 0x920E, 0x9201, 0x9202, 0x9209, 0x920A, 0xA208]
        self.assertTrue(all(opcodes.is_pointer_store(it) for it in stores))
        self.assertFalse(any(opcodes.is_pointer_store(it) for it in (0x8000, 0x900C, 0x9200, 0x920F, 0xB800)))

    def test_loads_of_a_number(self) -> None:
        self.assertEqual(opcodes.ldi(0xE5E4), (30, 0x54))
        flash = Flash({0: 0x51E0, 1: 0x4FFE, 2: 0xE0E8, 3: 0xE1F2})
        self.assertEqual(opcodes.pair_loaded(flash, 0), 0x1F0)
        self.assertEqual(opcodes.table_added(flash, 2), 0x1208)
        self.assertIsNone(opcodes.pair_loaded(flash, 2))

    def test_groups_that_not_all_devices_have(self) -> None:
        self.assertEqual([opcodes.group(it) for it in (0x9C01, 0x0200, 0x95D8, 0x9598, 0x0C00)], ["mul", "mul", "elpm", "break", None])


if __name__ == "__main__":
    unittest.main()
