"""Lines `recursion FUNCTION N` of a spec: at most N activations stand on the stack at a time. They become lines `recur ENTRY K` of an
assumption file: no call enters ENTRY while more than K bytes are on the stack, K the most that a call has above it within these numbers."""

from __future__ import annotations

import itertools
from dataclasses import dataclass, field, replace
from typing import TYPE_CHECKING, Dict, Iterator, List, Mapping, NamedTuple, Optional, Sequence, Tuple

from stackcheck_tools.firmware import opcodes
from stackcheck_tools.firmware.devices import Device
from stackcheck_tools.firmware.elf import Elf
from stackcheck_tools.firmware.names import SpecFault, functions, shown

if TYPE_CHECKING:
    from stackcheck_tools.firmware.firmware import Firmware
    from stackcheck_tools.spec.lines import Lines

KIND = "recur"
KIND_OF_SPEC = "recursion"
PLACE = "recursion"  # a kind of places: calls of which such a line of the spec speaks
BY_RUNS = "recursion by runs"  # those of which a line speaks that simulated runs made
MOST_STATES = 2_000_000  # tuples of counts with an instance each
LEAST_GREATEST = 2048  # the greatest K on a device with less SRAM

Counts = Tuple[int, ...]


@dataclass(frozen=True)
class Recursion:
    """A line of a spec: its number and the function, its words, the most activations at a time, why, and the depth of each word with the
    bytes that one activation more takes. One without a number in the spec has as many activations as simulated runs reached."""

    number: Optional[int]
    name: str
    entries: Tuple[int, ...]
    count: int
    reason: str = ""
    depths: Mapping[int, int] = field(default_factory=dict)
    steps: Mapping[int, int] = field(default_factory=dict)

    @property
    def why(self) -> str:
        return self.reason or f"`recursion {self.name} {self.count}`"

    def end(self) -> str:
        return ""

    def is_by_runs(self) -> bool:
        return self.number is None

    def line(self) -> str:
        """The line as it is to be copied: with the number only if runs have shown one."""
        seen = f"simulated runs reached {self.count}" if self.count > 1 else "no simulated run called it again"
        count = str(self.count) if self.count > 1 else "N"
        return f"{KIND_OF_SPEC} {self.name} {count}  # {seen}: write the greatest number possible, and why"

    def by_runs(self) -> str:
        """What is told of a call of such a function."""
        return f"calls {self.name}, of which the simulated runs had at most {self.count} on the stack"


def read(elf: Elf, number: int, words: List[str], why: str) -> Recursion:
    """A line `recursion FUNCTION N`."""
    if len(words) != 3:
        raise SpecFault("expected `recursion FUNCTION N`")
    if not words[2].isdecimal() or int(words[2]) < 1 or int(words[2]) > LEAST_GREATEST:
        raise SpecFault(f"{words[2]} is no number of activations: 1 to {LEAST_GREATEST}")
    return Recursion(number, words[1], tuple(sorted({it.address // 2 for it in functions(elf, words[1])})), int(words[2]), why)


def greatest(device: Device) -> int:
    """The greatest K that a line may have."""
    return max(LEAST_GREATEST, device.sram())


class Edge(NamedTuple):
    """Where an instance enters another one, at the greatest depth below its own base; `cut` is the number of the word's count, or None."""

    to: int
    depth: int
    cut: Optional[int]


class Nest:
    """The instances of a certificate under lines of depth 0, with all their edges: those into words with a line too."""

    def __init__(self, firmware: Firmware, certificate: str, entries: List[int]) -> None:
        self.elf, self.device, self.entries = firmware.elf, firmware.device, entries
        self.ranks: List[int] = []
        self.entry_of: List[int] = []
        self.are_calls: List[bool] = []
        self.by_key: Dict[Tuple[str, int, str, str], int] = {}
        self.jumps: Dict[int, List[int]] = {}
        self.edges: List[Dict[int, Edge]] = []
        for line in certificate.splitlines():
            words = line.split()
            if words[0] == "jump":
                self.jumps[int(words[1], 16)] = [int(it, 16) for it in words[2:]]
            elif words[0] == "inst":
                self.by_key[words[1], int(words[2], 16), words[3], words[4]] = len(self.ranks)
                self.ranks.append(int(words[6]))
                self.entry_of.append(int(words[2], 16))
                self.are_calls.append(words[1] == "call")
                self.edges.append({})
            elif words[0] == "node" and words[6].startswith("c"):
                self.node(words)
            elif words[0] == "witness":
                break

    def node(self, words: List[str]) -> None:
        """Notes what may be entered at a closed node."""
        at, word, enables, flag, depth = int(words[1]), int(words[2], 16), words[3], words[4], int(words[6][1:].partition(",")[0])
        for target in self.called(word, enables, flag):
            self.add(at, self.by_key.get(("call", target, enables, flag)), depth)
        if flag == "1" and words[5] == "0":
            for vector in self.device.vectors:
                if int(enables, 16) >> vector - 2 & 1 or self.device.is_open(vector):
                    self.add_handler(at, vector, int(enables, 16), depth)

    def called(self, word: int, enables: str, flag: str) -> List[int]:
        """The words that an instruction may enter by a call: all under these enables where the analysis knows the pointer and no line lists
        it."""
        target = opcodes.call_target(self.elf, word)
        if target is not None:
            return [target]
        if not opcodes.is_call(self.elf.word(word)):
            return []
        every = [key[1] for key in self.by_key if key[0] == "call" and key[2:] == (enables, flag)]
        return self.jumps.get(word, every)

    def add_handler(self, at: int, vector: int, enables: int, depth: int) -> None:
        for held in {enables, enables & ~(1 << vector - 2) if vector == self.device.watchdog else enables}:
            self.add(at, self.by_key.get((f"v{vector}", self.device.vector_word(vector), self.device.enables_text(held), "0")), depth)

    def add(self, at: int, to: Optional[int], depth: int) -> None:
        if to is None:
            return
        cut = self.entries.index(self.entry_of[to]) if self.is_cut(to) else None
        if (cut is not None or self.ranks[to] < self.ranks[at]) and (to not in self.edges[at] or self.edges[at][to].depth < depth):
            self.edges[at][to] = Edge(to, depth, cut)

    def is_cut(self, at: int) -> bool:
        return self.are_calls[at] and self.entry_of[at] in self.entries

    def depths(self, most: Counts) -> List[List[int]]:
        """For each word the greatest depth of a call that enters it as its first activation, its second, .. within these numbers; -1 where
        none does."""
        order = sorted(range(len(self.ranks)), key=lambda it: -self.ranks[it])
        base: Dict[Tuple[Counts, int], int] = {(tuple(0 for _ in most), 0): 0}
        found = [[-1] * it for it in most]
        for counts in sorted(itertools.product(*(range(it + 1) for it in most)), key=sum):
            for at in order:
                if (counts, at) in base:
                    self.relax(base, found, most, counts, at)
        return found

    def relax(self, base: Dict[Tuple[Counts, int], int], found: List[List[int]], most: Counts, counts: Counts, at: int) -> None:
        """Goes over the edges of an instance that begins at the greatest depth which these counts give it."""
        for edge in self.edges[at].values():
            depth, to = base[counts, at] + edge.depth, counts
            if edge.cut is not None:
                if counts[edge.cut] >= most[edge.cut]:
                    continue
                found[edge.cut][counts[edge.cut]] = max(found[edge.cut][counts[edge.cut]], depth)
                to = counts[:edge.cut] + (counts[edge.cut] + 1,) + counts[edge.cut + 1:]
            if base.get((to, edge.to), -1) < depth + self.device.back:
                base[to, edge.to] = depth + self.device.back


def numbered(recursions: Sequence[Recursion]) -> List[Tuple[int, Recursion]]:
    """The words with their lines, in ascending order."""
    found: Dict[int, Recursion] = {}
    for it in recursions:
        for entry in it.entries:
            if entry in found:
                raise SpecFault(f"{it.name} has a line `recursion` already", it.number)
            found[entry] = it
    return sorted(found.items(), key=lambda it: it[0])


def settled(firmware: Firmware, certificate: str, recursions: Sequence[Recursion]) -> Tuple[Recursion, ...]:
    """The lines with the K of each word, by a certificate under depth 0."""
    words = numbered(recursions)
    nest = Nest(firmware, certificate, [entry for entry, _ in words])
    states = len(nest.ranks)
    for _, it in words:
        states *= it.count + 1
    if states > MOST_STATES:
        raise SpecFault("the numbers of these lines are too great together: fewer functions of a cycle, or smaller ones",
                        words[-1][1].number, "SB008")
    depths: Dict[int, int] = {}
    steps: Dict[int, int] = {}
    for (entry, it), found in zip(words, nest.depths(tuple(it.count for _, it in words))):
        known = [depth for depth in found if depth >= 0]
        depths[entry] = min(max(known, default=0), greatest(firmware.device))
        steps[entry] = max(known) - max(known[:-1]) if len(known) > 1 else 0
    return tuple(replace(it, depths={at: depths[at] for at in it.entries}, steps={at: steps[at] for at in it.entries}) for it in recursions)


def line_at(recursions: Sequence[Recursion], word: Optional[int]) -> Optional[Recursion]:
    """The line that speaks of calls of a word."""
    return next((it for it in recursions if word in it.entries), None)


def conditions(recursions: Sequence[Recursion]) -> Iterator[str]:
    """Yields what the first line says of them."""
    yield from (f"{it.name} nests at most {it.count} deep" for it in recursions if not it.is_by_runs())


def conditions_by_runs(recursions: Sequence[Recursion]) -> Iterator[str]:
    """Yields the same of those without a line in the spec."""
    if by_runs := [f"{it.name} nests at most {it.count} deep" for it in recursions if it.is_by_runs()]:
        yield " and ".join(by_runs) + ", as deep as the runs of this call"


def of_call(elf: Elf, lines: Lines, recursions: Sequence[Recursion], word: int) -> Optional[Recursion]:
    """The line that speaks of the call at a word, by name or by a `jump` line."""
    target = opcodes.call_target(elf, word)
    targets = {target} if target is not None else lines.of(word, "jump") if opcodes.is_call(elf.word(word)) else set()
    return next((found for it in sorted(targets) if (found := line_at(recursions, it))), None)


def name_of_entry(firmware: Firmware, entry: int) -> str:
    symbol = firmware.elf.symbol_at(2 * entry)
    return shown(symbol) if symbol else firmware.device.word(entry)
