"""What the states of a certificate's nodes say of registers, and what a certificate permits pointers."""

import unittest
from types import SimpleNamespace
from typing import Dict, List, Tuple

import recorded

from stackcheck_tools.analysis import causes, node_states, questions
from stackcheck_tools.analysis.node_states import UNKNOWN, NodeStates, Value, constant
from stackcheck_tools.analysis.permitted import Permitted
from stackcheck_tools.analysis.questions import Answer, Places, Premises, Question
from stackcheck_tools.analysis.search import search
from stackcheck_tools.firmware import devices, effects
from stackcheck_tools.firmware.effects import X, Z

STD_Z3, ICALL, NOP = 0x8383, 0x9509, 0x0000  # std Z+3, r24
NAMES = ("monitor.range.elf", "queue.elf", "uart.elf")


class Flash:
    """Words of flash, `nop` where none is given, of a device without RAMPZ and EIND."""

    def __init__(self, words: Dict[int, int]) -> None:
        self.words, self.chip = words, SimpleNamespace(words=0x4000, banks=[])

    def word(self, word: int) -> int:
        return self.words.get(word, NOP)


def node(word: int, registers: Dict[int, str], pairs: str = "") -> str:
    """The line of a node with its state."""
    values = " ".join(registers.get(it, "-000000FF") for it in range(32))
    more = f"-0000 - - - - {pairs}" if pairs else "-0000 -"
    return f"node 0 {word:04X} 0000000 0 0 c0 - {values} {more}"


def states(words: Dict[int, int], *nodes: str, with_pairs: bool = False) -> NodeStates:
    return NodeStates(Flash(words), "\n".join(["stackcert 2", *["pairs"] * with_pairs, *nodes, "end"]))


def behind(opcode: int, values: Dict[int, Value]) -> List[Value]:
    return node_states.behind(effects.of(opcode, 0), [values.get(it, UNKNOWN) for it in range(32)])


class Behind(unittest.TestCase):
    def test_constants_and_copies_are_followed(self) -> None:
        self.assertEqual(behind(0xE5E4, {})[Z], constant(0x54))  # ldi r30
        self.assertEqual(behind(0x24EE, {})[14], constant(0))  # clr r14
        self.assertEqual(behind(0x01FC, {24: constant(1), 25: constant(2)})[Z:], [constant(1), constant(2)])  # movw r30, r24
        self.assertEqual(behind(0x2FE8, {24: constant(7)})[Z], constant(7))  # mov r30, r24

    def test_masks_and_sums_with_a_byte_leave_bits_and_ranges(self) -> None:
        self.assertEqual(behind(0x70E7, {})[Z], Value(0xF8, 0, 0, 7))  # andi r30, 7
        self.assertEqual(behind(0x62E0, {})[Z], Value(0x20, 0x20, 0x20, 0xFF))  # ori r30, 0x20
        self.assertEqual(behind(0x5DED, {Z: Value(0xF8, 0, 0, 7)})[Z], Value(0, 0, 0x23, 0x2A))  # subi r30, 0xDD
        self.assertEqual(behind(0x4FFF, {31: constant(0)})[31], Value(0, 0, 0, 1))  # sbci r31, 0xFF, whatever the carry is
        self.assertEqual(behind(0x95E3, {Z: constant(0x5C)})[Z], constant(0x5D))  # inc r30

    def test_a_sum_that_may_go_round_is_unknown(self) -> None:
        self.assertEqual(behind(0x50E5, {Z: Value(0, 0, 4, 9)})[Z], UNKNOWN)  # subi r30, 5
        self.assertEqual(behind(0x95E3, {Z: Value(0, 0, 0xFE, 0xFF)})[Z], UNKNOWN)

    def test_what_else_is_written_is_unknown_and_the_rest_stays(self) -> None:
        known = {it: constant(it) for it in range(32)}
        for opcode, written in ((0x9631, (30, 31)), (0x938D, (26, 27)), (0x918D, (24, 26, 27)), (0x9F01, (0, 1)), (0x91E4, (30,)),
                                (0x938F, ()), (0x1789, ()), (0x8383, ())):  # adiw, st X+, ld X+, mul, lpm, push, cp, std
            found = behind(opcode, known)
            self.assertEqual([it for it in range(32) if found[it] != constant(it)], sorted(written), f"{opcode:04X}")


class Nodes(unittest.TestCase):
    def test_a_node_without_a_state_has_what_its_instructions_leave(self) -> None:
        found = states({0: 0xE6E0, 1: 0xE0F0, 2: STD_Z3}, node(0, {24: "-FD010101"}), "node 0 0001 0000000 0 0 c0 - from 0",
                       "node 0 0002 0000000 0 0 c0 - from 1")
        self.assertTrue(found.is_fixed(2))
        self.assertEqual(found.known(2, Z), {0x60})
        self.assertTrue(found.may_write(2, 0x63))
        self.assertFalse(found.may_write(2, 0x60))
        self.assertEqual([bit for bit in range(8) if found.may_store(2, bit)], [0, 1])

    def test_a_store_is_fixed_if_its_pointer_is_at_each_node(self) -> None:
        one, other = node(2, {30: "-FF606060", 31: "-FF000000"}), node(2, {30: "-FF626262", 31: "-FF000000"})
        found = states({2: STD_Z3}, one, other)
        self.assertTrue(found.is_fixed(2))
        self.assertEqual(found.known(2, Z), {0x60, 0x62})
        self.assertEqual([it for it in range(0x70) if found.may_write(2, it)], [0x63, 0x65])
        self.assertFalse(states({2: STD_Z3}, one, node(2, {})).is_fixed(2))
        self.assertFalse(states({2: STD_Z3}, one).is_fixed(3))

    def test_bits_range_and_interval_exclude_numbers_together(self) -> None:
        line = node(2, {30: "-0100003F", 31: "-FF000000"}, "1E00100020")
        found = states({2: STD_Z3}, line, with_pairs=True)
        self.assertEqual([it - 3 for it in range(0x60) if found.may_write(2, it)], list(range(0x10, 0x21, 2)))
        self.assertEqual(found.interval(0, X), (0, 0xFFFF))

    def test_words_are_those_of_nodes(self) -> None:
        text = "\n".join(("stackcert 2", node(2, {}), "node 0 0005 0000000 0 0 c0 - from 0", "end"))
        self.assertEqual(node_states.words_of(text), {2, 5})


class Causes(unittest.TestCase):
    def of(self, text: str) -> causes.Cause:
        return causes.of_line(devices.default(), f"at 0002 std Z+0x03, r24 in main {text}")

    def test_the_pointer_has_its_least_and_its_greatest_number(self) -> None:
        self.assertEqual(self.of("live Z 0100 08FF").pointer, (0x100, 0x8FF))
        self.assertEqual(self.of("protected 0063 Z 0060 0060").number(), 0x60)
        self.assertIsNone(self.of("live Z 0100 08FF").number())
        self.assertIsNone(self.of("moves").number())


class OfAnswers(unittest.TestCase):
    def permitted(self, text: str, *nodes: str) -> Permitted:
        told = causes.by_word(devices.default(), [f"at 0002 std Z+0x03, r24 in main {text}"] if text else [])
        return Permitted(states({2: STD_Z3}, *nodes or (node(2, {}),)), told)

    def test_the_program_or_the_states_exclude_an_address(self) -> None:
        found = self.permitted("live Z 0040 0070", node(2, {30: "-010100FF"}))
        self.assertEqual([it for it in range(0x3E, 0x48) if found.may_write(2, it)], [0x44, 0x46])  # by the lowest bit of the pointer
        self.assertFalse(found.may_write(2, 0x76))
        self.assertTrue(self.permitted("").may_write(2, 0x76))

    def test_protected_registers_are_those_of_the_list_and_above_it_what_is_permitted(self) -> None:
        listed = "protected 0003 0004 0005 0006 0007 0008 0009 000A .. Z 0000 005B"
        found = self.permitted(listed)
        self.assertEqual([it for it in (2, 3, 0xA, 0xB, 0x5D, 0x5E, 0x5F) if found.may_write_protected(2, it)], [3, 0xA, 0xB, 0x5D, 0x5E])
        self.assertFalse(self.permitted("protected 006E Z 0000 FFFF").may_write_protected(2, 0x5F))
        self.assertFalse(self.permitted("live Z 0000 FFFF").may_write_protected(2, 0x5F))
        self.assertFalse(self.permitted("").may_write_protected(2, 0x5F))

    def test_a_store_is_fixed_if_the_program_says_one_number(self) -> None:
        self.assertTrue(self.permitted("protected 0063 Z 0060 0060").is_fixed(2))
        self.assertFalse(self.permitted("protected 0063 0064 Z 0060 0061").is_fixed(2))
        self.assertTrue(self.permitted("", node(2, {30: "-FF606060", 31: "-FF000000"})).is_fixed(2))

    def test_numbers_of_a_call_are_those_of_its_place_or_of_its_nodes(self) -> None:
        told = causes.by_word(devices.default(), ["at 0002 icall in main transfer Z 3800 3800"])
        self.assertEqual(Permitted(states({2: ICALL}, node(2, {})), told).numbers(2), {0x3800})
        known = node(2, {30: "-FF343434", 31: "-FF121212"})
        self.assertEqual(Permitted(states({2: ICALL}, known), {}).numbers(2), {0x1234})


class Recorded(unittest.TestCase):
    def premises(self, name: str) -> List[Tuple[str, Tuple[str, ...]]]:
        """The certificates of a search with what `premises --why` says of each."""
        facts, table = recorded.facts(name), recorded.read(name)
        found: List[Tuple[str, Tuple[str, ...]]] = []

        def answer(question: Question) -> Answer:
            said = table.answer(question)
            if isinstance(question, Premises) and isinstance(said, Places):
                found.append((question.certificate, said.lines))
            return said

        questions.run(search(facts, recorded.begin(facts)), answer)
        return found

    def test_states_permit_what_the_program_says_of_pointers(self) -> None:
        compared = 0
        for name in NAMES:
            facts = recorded.facts(name)
            for certificate, lines in self.premises(name):
                found = NodeStates(facts.elf, certificate)
                for word, cause in causes.by_word(facts.device, list(lines)).items():
                    store = effects.at(facts.elf, word)
                    for number in cause.pointer or () if isinstance(store, effects.Store) else ():
                        compared += 1
                        self.assertTrue(found.may_write(word, number + store.more & 0xFFFF), f"{name} {word:04X} {number:04X}")
                    for address in cause.addresses if isinstance(store, effects.Store) else ():
                        self.assertTrue(found.may_write(word, address), f"{name} {word:04X} {address:04X}")
        self.assertGreater(compared, 20)


if __name__ == "__main__":
    unittest.main()
