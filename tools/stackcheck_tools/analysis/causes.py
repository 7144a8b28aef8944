"""What may happen where a step may be flagged, as `premises --why` tells it, and the lines of a spec that close such places."""

from __future__ import annotations

import re
from typing import Dict, Iterable, List, Optional, Set, Tuple

from stackcheck_tools.analysis.questions import Refusal, Search, analyse, premises
from stackcheck_tools.analysis.telling import line_of_spec
from stackcheck_tools.firmware.devices import Device
from stackcheck_tools.firmware.firmware import Firmware
from stackcheck_tools.spec.lines import Lines

POINTER = r"(?: [XYZ] ([0-9A-F]{4}) ([0-9A-F]{4}))?"  # the least and the greatest number of the place's pointer
TOLD = re.compile(r" in \S+(?: protected((?: [0-9A-F]{4})+)( \.\.)?)?( live)?( transfer)?( moves)?" + POINTER + "$")
MOST_TRIED = 4  # places at which a line is tried


class Cause:
    """`addresses` of protected registers of a `device` that may be written, and whether there are `more`; `live`: a pushed byte may be;
    `transfer`: to an unlisted word; `moves`: the interrupt vectors may be moved. The device is None where there are no addresses.
    `pointer`: the least and the greatest number of the pair through which the instruction stores or goes on, before it moves the pair."""

    def __init__(self, device: Optional[Device] = None, addresses: Iterable[int] = (), more: bool = False, live: bool = False,
                 transfer: bool = False, moves: bool = False, pointer: Optional[Tuple[int, int]] = None) -> None:
        self.device, self.addresses, self.more, self.live, self.transfer, self.moves = device, set(addresses), more, live, transfer, moves
        self.pointer = pointer

    def __bool__(self) -> bool:
        return bool(self.addresses or self.live or self.transfer or self.moves)

    def is_few(self) -> bool:
        """Whether a line may list all that may happen."""
        return bool(self.addresses) and not (self.more or self.live or self.transfer or self.moves)

    def number(self) -> Optional[int]:
        """The one number that the pointer may be; None where it may be several, or there is no pointer."""
        return self.pointer[0] if self.pointer and self.pointer[0] == self.pointer[1] else None

    def join(self, other: Cause) -> None:
        self.device, self.addresses = self.device or other.device, self.addresses | other.addresses
        self.more, self.live, self.transfer = self.more or other.more, self.live or other.live, self.transfer or other.transfer
        self.moves = self.moves or other.moves

    def __str__(self) -> str:
        names = " ".join(self.device.register_name(it) if self.device else f"{it:04X}"
                         for it in sorted(self.addresses)) + (" .." if self.more else "")
        written = [f"a protected register ({names})"] * bool(self.addresses) + ["a pushed byte"] * self.live
        told = ["may write " + ", or ".join(written)] * bool(written)
        told += ["may go to a word that its `jump` line does not list"] * self.transfer
        return ", and ".join(told)


def of_line(device: Device, line: str) -> Cause:
    """What a line of `premises --why` tells of its place; nothing where it tells none."""
    found = TOLD.search(line)
    if not found:
        return Cause(device)
    addresses, *others, least, greatest = found.groups()
    more, live, transfer, moves = (it is not None for it in others)
    pointer = (int(least, 16), int(greatest, 16)) if least else None
    return Cause(device, (int(it, 16) for it in (addresses or "").split()), more, live, transfer, moves, pointer)


def by_word(device: Device, lines: List[str]) -> Dict[int, Cause]:
    """The causes of the places, by their words."""
    return {int(line.split()[1], 16): of_line(device, line) for line in lines if line.startswith("at ")}


def without(lines: Lines) -> Search[Optional[Set[int]]]:
    """The words at which a step may be flagged under other lines; None where there is no bound under them."""
    answer = yield from analyse(lines)
    if isinstance(answer, Refusal):
        return None
    told = yield from premises(lines, answer.text)
    return {int(line.split()[1], 16) for line in told if line.startswith("at ")}


def closers(firmware: Firmware, lines: Lines, causes: Dict[int, Cause]) -> Search[Dict[int, str]]:
    """For places at which a store may write a few protected registers and nothing else, the line of a spec that takes them off the list:
    tried, by word."""
    found, few = {}, [word for word, it in sorted(causes.items()) if it.is_few() and lines.may_add(word, "store", it.addresses)]
    for word in few[:MOST_TRIED]:
        more = lines.add(word, "store", causes[word].addresses)
        left = yield from without(more)
        if left is not None and word not in left:
            found[word] = line_of_spec(firmware, more, word, "store") or more.line(word, "store")
    return found
