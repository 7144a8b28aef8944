"""What is made of a certificate: the states of its nodes, and what pointers are made of there. A search, its warnings and the report ask it
of the same certificates, so it is kept for the last two."""

from __future__ import annotations

import functools
from typing import Tuple

from stackcheck_tools.analysis.node_states import NodeStates
from stackcheck_tools.analysis.questions import family
from stackcheck_tools.dataflow.numbers import Pointers
from stackcheck_tools.dataflow.origins import Origins
from stackcheck_tools.firmware.elf import Elf
from stackcheck_tools.firmware.firmware import Firmware
from stackcheck_tools.spec.lines import Lines

MOST_KEPT = 2  # certificates: with the line `masks` and without


@functools.lru_cache(maxsize=MOST_KEPT)
def states_of_family(elf: Elf, certificate: str) -> NodeStates:
    return NodeStates(elf, certificate)


def states(elf: Elf, certificate: str) -> NodeStates:
    """The states of a certificate's nodes, whatever its schedule is."""
    return states_of_family(elf, family(certificate))


@functools.lru_cache(maxsize=MOST_KEPT)
def pointers_by_lists(firmware: Firmware, certificate: str, lists: str) -> Pointers:
    found = states_of_family(firmware.elf, certificate)
    return Pointers(Origins(firmware.elf, firmware.device, found, Lines.read(firmware.device, lists)))


def look(firmware: Firmware, certificate: str, lines: Lines) -> Tuple[NodeStates, Pointers]:
    """The states of a certificate's nodes, and what pointers are made of there under the lists of calls and jumps."""
    lists = "".join(lines.line(site, "jump") + "\n" for site in lines.sites("jump"))
    return states(firmware.elf, certificate), pointers_by_lists(firmware, family(certificate), lists)
