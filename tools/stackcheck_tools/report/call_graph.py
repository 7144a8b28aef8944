"""The call graph of a certificate that was accepted: instances, what their own frames take, and where each enters others."""

from __future__ import annotations

from typing import Dict, Iterator, List, Optional, Set, Tuple

from stackcheck_tools.analysis.outcome import Accepted
from stackcheck_tools.firmware import opcodes
from stackcheck_tools.firmware.elf import Elf

STATE = 6  # words of a node behind its kind, before what it says of registers and slots


class Entry:
    """Where an instance enters another: the number of the other, and the greatest depth below its own entry at which it begins."""

    def __init__(self, other: int, depth: int, is_interrupt: bool) -> None:
        self.other, self.depth, self.is_interrupt = other, depth, is_interrupt


class Instance:
    """A function or handler under some enable bits: its name, rank and need, the most bytes of its own frame, and what it enters."""

    def __init__(self, kind: str, entry: int, enables: str, flag: str, rank: int, need: int) -> None:
        self.kind, self.entry, self.enables, self.flag, self.rank, self.need = kind, entry, enables, flag, rank, need
        self.own, self.calls, self.name = 0, 0, ""
        self.entries: Dict[int, Entry] = {}

    def is_handler(self) -> bool:
        return self.kind[0] == "v"

    def enter(self, other: int, depth: int, is_interrupt: bool) -> None:
        held = self.entries.get(other)
        if held is None or held.depth < depth:
            self.entries[other] = Entry(other, depth, is_interrupt)


def called(elf: Elf, word: int, lines: Dict[int, Set[int]]) -> Optional[Set[int]]:
    """The words that an instruction may enter by a call; None where it may be any."""
    target = opcodes.call_target(elf, word)
    if target is not None:
        return {target}
    if not opcodes.is_call(elf.word(word)):
        return set()
    return lines.get(word)


class Graph:
    """`instances` in the order of the certificate, the first of which is the start."""

    def __init__(self, outcome: Accepted) -> None:
        self.outcome, self.back = outcome, outcome.firmware.device.back
        self.instances: List[Instance] = []
        self.by_key: Dict[Tuple[str, int, str, str], int] = {}
        self.lines: Dict[int, Set[int]] = {}
        self.depths: Dict[int, int] = {}
        self.handled: Dict[int, List[int]] = {}  # instances of handlers, by the enables under which they may be entered
        self.called: Dict[int, Optional[Set[int]]] = {}  # what instructions may enter by calls
        for line in outcome.certificate.splitlines():
            kind, _, rest = line.partition(" ")
            if kind == "node":
                self.node(*rest.split(" ", STATE)[:STATE])
                continue
            words = line.split()
            if kind == "jump":
                self.lines[int(words[1], 16)] = {int(it, 16) for it in words[2:]}
            elif kind == "inst":
                self.add(Instance(words[1], int(words[2], 16), words[3], words[4], int(words[6]), int(words[8])))
            elif kind == "recur":
                self.depths[int(words[1], 16)] = int(words[2])
            elif kind == "witness":
                break
        self.enter_cut()
        for it in sorted(self.instances, key=lambda it: it.rank):
            self.settle(it)

    def add(self, instance: Instance) -> None:
        symbol = self.outcome.firmware.elf.symbol_at(2 * instance.entry)
        name = symbol.name if symbol and symbol.address == 2 * instance.entry else None
        instance.name = self.outcome.firmware.instance(instance.kind, instance.entry, name)
        self.by_key[instance.kind, instance.entry, instance.enables, instance.flag] = len(self.instances)
        self.instances.append(instance)

    def enter_cut(self) -> None:
        """What the spec's recursions enter counts as entered by the start, at their depths."""
        for number, it in enumerate(self.instances):
            if it.kind == "call" and it.entry in self.depths:
                self.instances[0].enter(number, self.depths[it.entry] + self.back, False)

    def node(self, number: str, word: str, enables: str, flag: str, delay: str, depth: str) -> None:
        """What a node adds to its instance: its offset, and what may be entered there."""
        instance, offset = self.instances[int(number)], int(depth[1:].partition(",")[0])
        instance.own = max(instance.own, offset)
        if not depth.startswith("c"):
            return
        self.calls(instance, int(word, 16), enables, flag, offset)
        if flag == "1" and delay == "0":
            self.interrupts(instance, int(enables, 16), offset)

    def calls(self, instance: Instance, word: int, enables: str, flag: str, offset: int) -> None:
        if word not in self.called:
            self.called[word] = called(self.outcome.firmware.elf, word, self.lines)
        targets = self.called[word]
        if targets is None:  # a pointer that the analysis knows: whatever this place could enter
            targets = {it.entry for it in self.instances if it.kind == "call" and it.rank < instance.rank}
        for target in targets:
            other = self.by_key.get(("call", target, enables, flag))
            if other is not None and self.fits(instance, other, offset):
                instance.enter(other, offset + self.back, False)

    def interrupts(self, instance: Instance, enables: int, offset: int) -> None:
        if enables not in self.handled:
            self.handled[enables] = list(self.handlers_under(enables))
        for number in self.handled[enables]:
            if self.fits(instance, number, offset):
                instance.enter(number, offset + self.back, True)

    def handlers_under(self, enables: int) -> Iterator[int]:
        """Yields the instances of all handlers that may be entered under these enables."""
        device = self.outcome.firmware.device
        for vector in device.vectors:
            if enables >> vector - 2 & 1 or device.is_open(vector):
                yield from self.handlers(vector, device.vector_word(vector), enables)

    def handlers(self, vector: int, entry: int, enables: int) -> Iterator[int]:
        """The instances of a handler that may be entered under these enables: WDT clears its own bit, as it may have been set to."""
        device = self.outcome.firmware.device
        for held in {enables, enables & ~(1 << vector - 2) if vector == device.watchdog else enables}:
            number = self.by_key.get((f"v{vector}", entry, device.enables_text(held), "0"))
            if number is not None:
                yield number

    def fits(self, instance: Instance, other: int, offset: int) -> bool:
        return self.instances[other].rank < instance.rank and offset + self.back + self.instances[other].need <= instance.need

    def settle(self, instance: Instance) -> None:
        """The bytes of an instance with its calls and without interrupts; all that it enters by calls is settled before."""
        instance.calls = max([instance.own, *(it.depth + self.instances[it.other].calls for it in instance.entries.values()
                                              if not it.is_interrupt)])


class Need:
    """What a function takes below its entry, the greatest over all ways to it: its own frame, with calls, and with interrupts too."""

    def __init__(self, name: str) -> None:
        self.name, self.own, self.calls, self.all, self.is_handler = name, 0, 0, 0, False

    def add(self, instance: Instance) -> None:
        self.own, self.calls, self.all = max(self.own, instance.own), max(self.calls, instance.calls), max(self.all, instance.need)
        self.is_handler = instance.is_handler()


def needs(graph: Graph) -> List[Need]:
    """The needs by name, the greatest first."""
    found: Dict[str, Need] = {}
    for it in graph.instances:
        found.setdefault(it.name, Need(it.name)).add(it)
    return sorted(found.values(), key=lambda it: (-it.all, it.name))
