"""What the states of a certificate's nodes say of registers: known bits and ranges, with the intervals of pairs where the line `pairs`
stands. Where `premises --why` tells of a pointer, it is asked first; these states are for stores and calls that are no places, and for
bytes that are stored."""

from __future__ import annotations

from typing import Dict, FrozenSet, Iterator, List, NamedTuple, Set, Tuple, Union

from stackcheck_tools.firmware import effects
from stackcheck_tools.firmware.effects import Effect, Logic, Sum
from stackcheck_tools.firmware.elf import Elf

FROM, VALUES, PAIRS = 8, 8, 45  # words of a node's line; that of pairs comes behind one for each of RAMPZ and EIND
PAIR = 10  # digits of a pair: its register, its least and its greatest number


class Value(NamedTuple):
    """What is known of a byte: the mask of its known bits, these bits, and its range."""

    mask: int
    bits: int
    least: int
    greatest: int

    def may_be(self, byte: int) -> bool:
        return byte & self.mask == self.bits & self.mask and self.least <= byte <= self.greatest

    def may_have(self, bit: int) -> bool:
        """Whether a bit may be 1."""
        return not self.mask >> bit & 1 or bool(self.bits >> bit & 1)


UNKNOWN = Value(0, 0, 0, 255)


def constant(byte: int) -> Value:
    return Value(0xFF, byte, byte, byte)


def ranged(least: int, greatest: int) -> Value:
    """A value by the range that a sum or a difference has, which may have gone round."""
    if least >> 8 != greatest >> 8:
        return UNKNOWN
    return constant(least & 0xFF) if least == greatest else Value(0, 0, least & 0xFF, greatest & 0xFF)


def with_byte(effect: Union[Sum, Logic], it: Value) -> Value:
    """A value to which a byte is added, or from which it is subtracted, whatever the carry is; or with its bits set or cleared."""
    byte = effect.byte
    if isinstance(effect, Sum):
        least, greatest = (-byte - effect.carries, -byte) if effect.is_less else (byte, byte + effect.carries)
        return ranged(it.least + least, it.greatest + greatest)
    if effect.operation == "or":
        return Value(it.mask | byte, it.bits | byte, byte, 255)
    return Value(it.mask | ~byte & 0xFF, it.bits & byte, 0, byte)


def behind(effect: Effect, values: List[Value]) -> List[Value]:
    """The 32 values behind an instruction, as far as they are followed here: constants, copies, and what is computed with a constant."""
    values = list(values)
    if isinstance(effect, effects.Constant):
        values[effect.to] = constant(effect.byte)
    elif isinstance(effect, effects.Copy):
        values[effect.to:effect.to + effect.size] = values[effect.of:effect.of + effect.size]
    elif isinstance(effect, (Sum, Logic)) and effect.of is None:
        values[effect.to] = with_byte(effect, values[effect.to])
    else:
        for it in effects.written(effect):
            values[it] = UNKNOWN
    return values


def value(token: str) -> Value:
    """Known bits and range of a value of a certificate, whose tag stands before them."""
    digits = token[-8:]
    return Value(*(int(digits[at:at + 2], 16) for at in (0, 2, 4, 6)))


def words_of(certificate: str) -> FrozenSet[int]:
    """The words that a certificate reaches: those of its nodes."""
    return frozenset(int(line.split(" ", 3)[2], 16) for line in certificate.splitlines() if line.startswith("node "))


class NodeStates:
    """The nodes of a certificate by their words, with the values of the registers that each begins with."""

    def __init__(self, elf: Elf, certificate: str) -> None:
        self.elf, self.has_pairs, self.pairs_at = elf, "\npairs\n" in certificate, PAIRS + len(elf.chip.banks)
        self.lines: List[List[str]] = []
        self.told: Dict[int, List[Value]] = {}
        self.at: Dict[int, List[int]] = {}
        for line in certificate.splitlines():
            if line.startswith("node "):
                words = line.split()
                self.at.setdefault(int(words[2], 16), []).append(len(self.lines))
                self.lines.append(words)

    def values(self, number: int) -> List[Value]:
        """The values of a node: its own, or worked out from the node from which it is the only successor."""
        passed = []
        while number not in self.told and self.lines[number][FROM] == "from":
            passed.append(number)
            number = int(self.lines[number][FROM + 1])
        if number not in self.told:
            self.told[number] = [value(it) for it in self.lines[number][VALUES:VALUES + 32]]
        for it in reversed(passed):
            before = int(self.lines[it][FROM + 1])
            self.told[it] = behind(effects.at(self.elf, int(self.lines[before][2], 16)), self.told[before])
        return self.told[passed[0] if passed else number]

    def values_at(self, word: int) -> Iterator[List[Value]]:
        return (self.values(number) for number in self.at.get(word, ()))

    def interval(self, number: int, register: int) -> Tuple[int, int]:
        """The least and the greatest number of a pair that its interval leaves, where the node says one itself."""
        words = self.lines[number]
        if self.has_pairs and words[FROM] != "from":
            pairs = words[self.pairs_at]
            for at in range(0, len(pairs) - PAIR + 1, PAIR):
                if int(pairs[at:at + 2], 16) == register:
                    return int(pairs[at + 2:at + 6], 16), int(pairs[at + 6:at + 10], 16)
        return 0, 0xFFFF

    def may_write(self, word: int, address: int) -> bool:
        """Whether the store through a pointer at a word may write an address."""
        store = effects.at(self.elf, word)
        if not isinstance(store, effects.Store):
            return False
        wanted = (address - store.more) & 0xFFFF
        for number in self.at.get(word, ()):
            low, high = self.values(number)[store.pair:store.pair + 2]
            least, greatest = self.interval(number, store.pair)
            if least <= wanted <= greatest and low.may_be(wanted & 0xFF) and high.may_be(wanted >> 8):
                return True
        return False

    def may_store(self, word: int, bit: int) -> bool:
        """Whether the byte that a store or an `out` at a word writes may have a bit."""
        effect = effects.at(self.elf, word)
        if not isinstance(effect, (effects.Store, effects.StoreAt, effects.Output)):
            return False
        return any(it[effect.of].may_have(bit) for it in self.values_at(word))

    def known(self, word: int, register: int) -> Set[int]:
        """The numbers that a pair of registers is known to be at nodes of a word."""
        pairs = [(it[register], it[register + 1]) for it in self.values_at(word)]
        return {high.bits << 8 | low.bits for low, high in pairs if low.mask == high.mask == 0xFF}

    def is_fixed(self, word: int) -> bool:
        """Whether the pointer of the store at a word is one constant at each of its nodes."""
        store = effects.at(self.elf, word)
        if not isinstance(store, effects.Store) or word not in self.at:
            return False
        return all(it[store.pair].mask == it[store.pair + 1].mask == 0xFF for it in self.values_at(word))
