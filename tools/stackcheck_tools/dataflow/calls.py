"""The lists of calls and jumps through pointers: complete ones, and those that are tried first."""

from __future__ import annotations

from typing import FrozenSet, NamedTuple, Optional, Set

from stackcheck_tools.dataflow import loaded, virtual_calls
from stackcheck_tools.dataflow.virtual_calls import Call, taken_by
from stackcheck_tools.firmware import candidates, records, switches, taken, virtual_tables
from stackcheck_tools.firmware.devices import Device
from stackcheck_tools.firmware.elf import Elf

ALL, PLAIN, PLACE, OBJECT, HELPER = "all", "plain", "place", "object", "helper"  # what a complete list has


class Complete(NamedTuple):
    """The words that a call or jump may enter if it keeps to its functions, whether the linker's records tell them, and what they are: all
    whose address is taken; those that stand not in tables of virtual functions alone; with these, those at a place of the tables; those at a
    place of the tables of a class; constructors and cases of `switch`."""

    words: FrozenSet[int]
    by_records: bool
    kind: str


def in_tables(elf: Elf) -> Set[int]:
    return {word for it in virtual_tables.tables(elf) for word in it.words}


def of_call(elf: Elf, call: Call) -> Set[int]:
    """The functions of tables of virtual functions that a call may enter."""
    if call.place is None:
        return set()
    return virtual_tables.at_place(elf, virtual_tables.points(elf) if call.points is None else call.points, call.place)


def kind_of(elf: Elf, call: Optional[Call]) -> str:
    if call is None or not virtual_tables.tables(elf):
        return ALL
    return PLAIN if call.place is None else PLACE if call.points is None else OBJECT


def of_site(elf: Elf, device: Device, site: int, reached: FrozenSet[int]) -> Optional[Complete]:
    """What a call or jump through a pointer may enter; None where that isn't known: the file has no names and no records, or a table of a
    helper isn't. `reached`: the words of the nodes of a certificate."""
    symbol = elf.symbol_at(2 * site)
    if symbol is not None and symbol.name.startswith(loaded.TABLES):
        words = switches.of_helper(elf)
        return None if words is None else Complete(words, True, HELPER)
    call = virtual_calls.of_site(elf, site)
    kind, has_records = kind_of(elf, call), records.has_records(elf)
    if not has_records and not elf.code:
        return None
    labels = switches.labels(elf, site)
    if call is not None and kind == OBJECT:
        return Complete(frozenset(of_call(elf, call)), has_records, kind)
    words = taken_by(elf, virtual_tables.spans(elf) if kind != ALL else ()) | labels
    if not has_records:
        left = taken.left_over(elf, device, set(reached))
        words |= left - in_tables(elf) if kind != ALL else left
    return Complete(words | (of_call(elf, call) if call is not None and kind == PLACE else set()), has_records, kind)


def first_targets(elf: Elf, device: Device, site: int) -> Set[int]:
    """Where a call or jump through a pointer may go by all that the file tells without a certificate; `exit` where it tells nothing."""
    symbol = elf.symbol_at(2 * site)
    if symbol and symbol.name.startswith(loaded.TABLES):
        return set(switches.of_helper(elf) or ()) | candidates.of_helper(elf)
    found = candidates.table_of_jumps(elf, site) or candidates.of_flash_table(elf, site) or of_pointer(elf, device, site)
    return set(found) or {it.address // 2 for name in ("exit", "_exit") for it in elf.named(name)}


def of_pointer(elf: Elf, device: Device, site: int) -> Set[int]:
    """The functions that a call through a pointer may reach: of those in tables of virtual functions the ones that it may read there."""
    found = candidates.addressed(elf, device)
    call = virtual_calls.of_site(elf, site) if elf.code and virtual_tables.tables(elf) else None
    if call is not None:
        found = (set() if call.points is not None else found & taken_by(elf, virtual_tables.spans(elf))) | of_call(elf, call)
    known = records.taken(elf)
    return found if known is None else found & known
