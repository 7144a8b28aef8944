"""Of which number a pointer is made, and where: the nearest instruction on a way to it that reads one."""

from __future__ import annotations

from collections import deque
from typing import Deque, Iterator, NamedTuple, Optional, Set, Tuple

from stackcheck_tools.dataflow import origin
from stackcheck_tools.dataflow.origin import ALONE, NUMBER
from stackcheck_tools.dataflow.origins import KEPT_BY_CALLS, Key, Origins
from stackcheck_tools.firmware import effects
from stackcheck_tools.firmware.elf import CODE_END

MOST_STEPS = 4000
Held = Tuple[Key, int]  # a register before a word


class Source(NamedTuple):
    """The word of an instruction that reads a number, and what it reads (None: what it computes has no name)."""

    word: int
    name: Optional[str]


def is_unknown(byte: int) -> bool:
    """Whether a byte may be a number that isn't one of few constants."""
    return bool(byte & (NUMBER | ALONE)) or not byte


class Search:
    """A search along the ways that lead to a word."""

    def __init__(self, origins: Origins) -> None:
        self.origins, self.run, self.elf = origins, origins.run, origins.elf

    def source(self, word: int, pair: int) -> Optional[Source]:
        """Where a pair of registers gets a number from before a word; None where that isn't found."""
        starts = [(key, register) for key in self.origins.by_word.get(word, ()) for register in (pair, pair + 1)]
        left: Deque[Held] = deque(it for it in starts if is_unknown(self.byte(it)))
        seen: Set[Held] = set(left)
        while left and len(seen) < MOST_STEPS:
            held = left.popleft()
            for before in self.run.ways.get(held[0], ()):
                if (found := self.read_at(before, held)) is not None:
                    return found
                for it in self.held_before(before, held):
                    if it not in seen and is_unknown(self.byte(it)):
                        seen.add(it)
                        left.append(it)
        return None

    def byte(self, held: Held) -> int:
        return self.run.before[held[0]].registers[held[1]]

    def is_passed(self, before: Key, held: Held) -> bool:
        """Whether a register has what it had before the word in front: it isn't written there."""
        effect = effects.at(self.elf, before[1])
        return held[1] not in effects.written(effect)

    def is_return(self, before: Key, held: Held) -> bool:
        return before[0] == held[0][0] and held[0][1] != held[0][0] and before in self.run.returned

    def held_before(self, before: Key, held: Held) -> Iterator[Held]:
        """Yields the registers before a word of which a register behind it is made."""
        register = held[1]
        if self.is_return(before, held):
            if register in KEPT_BY_CALLS:
                yield before, register
            else:
                yield from ((it, register) for to in self.run.returned[before] for it in self.run.leaving.get(to, ()))
            return
        effect = effects.at(self.elf, before[1])
        if self.is_passed(before, held):
            yield before, register
        elif isinstance(effect, effects.Copy):
            yield before, effect.of + register - effect.to
        elif isinstance(effect, (effects.Sum, effects.Logic)):
            parts = [(before, effect.to)] if effect.of is None else [(before, effect.to), (before, effect.of)]
            yield from parts if all(origin.is_number(self.byte(it)) for it in parts) else ()
        elif isinstance(effect, effects.Mixed):
            yield from ((before, it) for it in effect.of)
        elif isinstance(effect, (effects.Negation, effects.Step)) or register != getattr(effect, "to", register):
            yield before, register

    def read_at(self, before: Key, held: Held) -> Optional[Source]:
        """What an instruction reads that gives a register a number; None of another instruction."""
        effect = effects.at(self.elf, before[1])
        if self.is_return(before, held) or held[1] not in effects.written(effect) or held[1] != getattr(effect, "to", None):
            return None
        if isinstance(effect, (effects.LoadAt, effects.Input)):
            return Source(before[1], self.name_at(effect.address))
        if isinstance(effect, effects.Load):
            registers = self.run.before[before].registers
            found = origin.objects(registers[effect.pair] | registers[effect.pair + 1])
            names = [name for it in found if (name := self.object_name(it))]
            return Source(before[1], names[0] if len(names) == 1 else None)
        return Source(before[1], None) if isinstance(effect, effects.LoadFlash) else None

    def object_name(self, number: int) -> Optional[str]:
        spans = self.origins.told.spans
        return self.name_at(spans[number][0]) if number < len(spans) else None

    def name_at(self, address: int) -> Optional[str]:
        """What the program calls an address: a register, or a variable with what is added to it."""
        if name := self.run.device.names.get(address):
            return name
        for name, (at, size) in self.elf.objects.items():
            if at <= address + CODE_END < at + max(size, 1):
                return name + (f"+{address + CODE_END - at}" if address + CODE_END > at and size > 2 else "")
        return None
