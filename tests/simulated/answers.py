"""What `stackcheck` says of a firmware, as far as runs can contradict it."""

from __future__ import annotations

import json
import os
import subprocess
import sys
from typing import Dict, Iterator, List, Set

from simulated import TOP, Seen
from stackcheck_tools.analysis.node_states import NodeStates
from stackcheck_tools.firmware import effects
from stackcheck_tools.firmware.elf import CODE_END, Elf

TOOL = os.environ.get("STACKCHECK", os.path.join(TOP, "tools", "stackcheck"))
FLASH = 0x1000000  # is added to homes in flash
HEAP = ("malloc", "_Znwj")  # functions by which memory without a name is given


class Answer:
    """An answer of `stackcheck`: its status, its bound (None if there is none), the words of places and of ordinary ones, the lists of
    calls and jumps, and the nodes of its certificate."""

    def __init__(self, elf: Elf, folder: str, words: List[str], tool: str = TOOL) -> None:
        self.elf = elf
        report, certificate = os.path.join(folder, "report"), os.path.join(folder, "certificate")
        said = subprocess.run([sys.executable, "-B", tool, elf.path, "--no-attain", "--json", report, "--cert", certificate, *words],
                              stdin=subprocess.DEVNULL, stdout=subprocess.PIPE, stderr=subprocess.STDOUT, check=False)
        self.status, self.text, self.bound = said.returncode, said.stdout.decode("utf8", "replace"), None
        if not os.path.exists(report):
            return
        with open(report, encoding="utf8") as file:
            told = json.load(file)
        if told["bound"] is None:
            return
        self.bound = told["bound"]["bytes"]
        with open(certificate, encoding="ascii") as file:
            self.states = NodeStates(elf, file.read())
        self.places: Set[int] = set()
        self.ordinary: Set[int] = set()
        for it in told["findings"]:
            found = {int(at["word"], 16) for at in it["locations"]} if it["kind"] and it["subject"] else set()
            self.places |= found
            self.ordinary |= found if it["kind"] == "ordinary" else set()
        self.lists: Dict[int, Set[int]] = {}
        self.listed: Dict[int, Set[int]] = {}
        for it in told["lines"]:
            for part in it["assumption"].split(", "):
                what, *numbers = part.split()
                if what in ("jump", "store"):
                    lists = self.lists if what == "jump" else self.listed
                    lists.setdefault(int(numbers[0], 16), set()).update(int(it, 16) for it in numbers[1:])

    def may_write_core(self, word: int) -> List[int]:
        """The registers of the core that the certificate lets a store through a pointer write, but for one that each node knows."""
        device, states = self.elf.chip, self.states
        if word not in states.at or states.is_fixed(word):
            return []
        found = {address for name, address in device.core.items() if not name.startswith("r")}
        if device.moving and states.may_store(word, device.moving.mask.bit_length() - 1):
            found.add(device.moving.address)
        return [it for it in sorted(found - self.listed.get(word, set())) if states.may_write(word, it)]


def is_pure(elf: Elf, home: int, seen: Seen) -> bool:
    """Whether memory that a pointer was loaded from never held an address in any run: the object there, or these two bytes if there is
    none. Of the heap nothing is known."""
    if home >= FLASH:
        return False
    for address, size in elf.objects.values():
        if address - CODE_END <= home < address - CODE_END + size:
            return not any(it in seen.stood for it in range(address - CODE_END, address - CODE_END + size))
    is_heap = home >= (elf.static_end() or 0) and any(it in elf.all for it in HEAP)
    return not is_heap and home not in seen.stood and home + 1 not in seen.stood


def source(elf: Elf, word: int, told: str, seen: Seen) -> str:
    """The source of the pointers of a word, with those kept counted as numbers if their memory never held an address."""
    if told != "kept":
        return told
    return "numbers" if all(is_pure(elf, home, seen) for home in seen.homes.get(word, ())) else told


def name(elf: Elf, word: int) -> str:
    symbol = elf.symbol_at(2 * word)
    return f"{word:04X} {symbol.name if symbol else '-'}"


def of_stores(answer: Answer, seen: Seen) -> Iterator[str]:
    """Yields what contradicts the answer: a store through a number that may write the core and isn't ordinary, and one through a kept
    pointer or a constant that wrote it."""
    for (word, told), stores in sorted(seen.stores.items()):
        if told == "address" or word in answer.ordinary:
            continue
        where, hit = name(answer.elf, word), seen.core.get((word, told), set()) - answer.listed.get(word, set())
        if word not in answer.states.at:
            yield f"store at {where}: the certificate does not reach it"
        elif source(answer.elf, word, told, seen) == "numbers" and (may := answer.may_write_core(word)):
            yield (f"store at {where}: {stores.number} times through a number, {stores.least:04X} to {stores.most:04X}, and may write "
                   f"{' '.join(f'{it:04X}' for it in may)}")
        elif hit and not answer.states.is_fixed(word):
            yield f"store at {where}: by a pointer of {told} it wrote {' '.join(f'{it:04X}' for it in sorted(hit))}"


def of_certificate(answer: Answer, seen: Seen) -> Iterator[str]:
    """Yields the writes of the core that the certificate, as the tools read it, excludes."""
    for (word, _), addresses in sorted(seen.core.items()):
        is_store = isinstance(effects.at(answer.elf, word), effects.Store)
        for address in sorted(addresses):
            if is_store and word in answer.states.at and not answer.states.may_write(word, address):
                yield f"store at {name(answer.elf, word)}: it wrote {address:04X}, which the certificate excludes"


def of_transfers(answer: Answer, seen: Seen, with_kept: bool = False) -> Iterator[str]:
    """Yields the calls and jumps that went to what neither their list nor the certificate has, and aren't ordinary; those through kept
    pointers only if they are asked for."""
    for (word, told), targets in sorted(seen.targets.items()):
        if word in answer.ordinary:
            continue
        known = answer.lists.get(word)
        missing = {it for it in targets if (it not in known if known is not None else it not in answer.states.at)}
        if missing and (with_kept or source(answer.elf, word, told, seen) != "kept"):
            yield (f"transfer at {name(answer.elf, word)}: from {told} to {', '.join(name(answer.elf, it) for it in sorted(missing))}, "
                   f"which {'its list' if known is not None else 'the certificate'} lacks")


def of_depth(answer: Answer, seen: Seen) -> Iterator[str]:
    """Yields a run that is deeper than a bound that stands without a word of review."""
    if answer.status == 0 and answer.bound is not None and seen.depth > answer.bound:
        yield f"depth {seen.depth}, above the bound {answer.bound} with status 0"
