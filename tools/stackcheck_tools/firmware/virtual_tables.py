"""The tables of virtual functions in a C++ firmware, and where the pointers of objects may lead into them."""

from __future__ import annotations

import functools
import re
import struct
from typing import Dict, FrozenSet, Iterator, List, NamedTuple, Optional, Set, Tuple

from stackcheck_tools.firmware import records, taken
from stackcheck_tools.firmware.cxx_names import qualified, without_parameters, written
from stackcheck_tools.firmware.elf import CODE_END, Elf
from stackcheck_tools.firmware.names import base

TABLES, TYPES = ("_ZTV", "_ZTC"), "_ZTI"  # of classes, and of bases while they are made; type information
MOVED = r"(?:hn?\d+_|vn?\d+_n?\d+_)"
THUNK = re.compile(rf"_ZT(?:c{MOVED}{MOVED}|{MOVED})")  # a function that corrects the object's address and goes on to another one
PURE = ("__cxa_pure_virtual", "__cxa_deleted_virtual")
NEGATIVE = 0x8000  # from here on a word is the offset of a base
STUB = "@stub"


class Table(NamedTuple):
    """A table: its data address, its words, and the numbers of the words to which pointers may lead."""

    address: int
    words: Tuple[int, ...]
    points: Tuple[int, ...]


class Point(NamedTuple):
    """A place to which the pointer of an object may lead: the words from there to the end of the table."""

    words: Tuple[int, ...]

    def at(self, place: int) -> Optional[int]:
        """The word of the function at a place; None where the table has none there."""
        return self.words[place] if 0 <= place < len(self.words) and self.words[place] else None


class Name(NamedTuple):
    """The name of a member function: its class, and the last part of it, which is one for all destructors."""

    of_class: str
    last: str


def objects(elf: Elf) -> Iterator[Tuple[str, int, int]]:
    """Yields the name, the data address and the size of what is called as a table."""
    yield from ((name, address, size) for name, (address, size) in elf.objects.items() if name.startswith(TABLES))


def is_whole(elf: Elf) -> bool:
    """Whether each table has a size and values, and the file its local names."""
    return elf.has_local and all(size and elf.at_data_address(address, size) is not None for _, address, size in objects(elf))


def named_places(elf: Elf) -> FrozenSet[int]:
    """The data addresses that the file names."""
    if records.has_records(elf):
        return frozenset(it.address for it in records.every(elf))
    return frozenset(CODE_END + number for number in taken.numbers_in_data(elf) | taken.numbers_loaded(elf))


def points_of(address: int, words: Tuple[int, ...], places: FrozenSet[int], types: Set[int], has_records: bool) -> Iterator[int]:
    """Yields the numbers of the words of a table to which pointers may lead: behind 0 or the address of type information, and named, or
    behind the offset of a base."""
    found = []
    for at in range(1, len(words)):
        if words[at - 1] == 0 or words[at - 1] in types:
            is_named = address + 2 * at in places
            if is_named or not has_records and at >= 2 and words[at - 2] >= NEGATIVE:
                found.append(at)
    yield from found if found or has_records or len(words) < 3 else [2]


@functools.lru_cache(maxsize=None)
def tables(elf: Elf) -> Tuple[Table, ...]:
    """The tables that have a size and values."""
    found, places = [], named_places(elf)
    types = {address - CODE_END for name, (address, _) in elf.objects.items() if name.startswith(TYPES)}
    for _, address, size in objects(elf):
        data = elf.at_data_address(address, size) if size else None
        if data:
            words = struct.unpack(f"<{len(data) // 2}H", data[:len(data) & ~1])
            found.append(Table(address, words, tuple(points_of(address, words, places, types, records.has_records(elf)))))
    return tuple(found)


@functools.lru_cache(maxsize=None)
def spans(elf: Elf) -> Tuple[Tuple[int, int], ...]:
    """The spans of data addresses of the tables."""
    return tuple((it.address, it.address + 2 * len(it.words)) for it in tables(elf))


@functools.lru_cache(maxsize=None)
def points(elf: Elf) -> Tuple[Point, ...]:
    """The places to which the pointers of objects may lead."""
    return tuple(Point(it.words[at:]) for it in tables(elf) for at in it.points)


def is_function(elf: Elf, word: int) -> bool:
    symbol = elf.symbol_at(2 * word)
    return word != 0 and symbol is not None and symbol.address == 2 * word


def at_place(elf: Elf, found: Tuple[Point, ...], place: int) -> Set[int]:
    """The functions that stand at a place behind some of these points."""
    return {word for it in found if (word := it.at(place)) is not None and is_function(elf, word)}


@functools.lru_cache(maxsize=None)
def names_at(elf: Elf) -> Dict[int, List[str]]:
    """The names of functions by their words."""
    found: Dict[int, List[str]] = {}
    for it in elf.code:
        found.setdefault(it.address // 2, []).append(it.name)
    return found


def name_of(symbol: str) -> Optional[Name]:
    """The name of a member function, of a thunk that of the function to which it goes on; None of one that isn't read."""
    symbol = THUNK.sub("_Z", base(symbol[:-len(STUB)] if symbol.endswith(STUB) else symbol))
    whole = qualified(symbol)
    if whole is None or written(symbol) is None:
        return None
    of_class, _, last = without_parameters(whole).rpartition("::")
    return Name(of_class, "~" if last.startswith("~") else last) if of_class else None


def names_of(elf: Elf, word: int) -> Optional[Set[Name]]:
    """The names that a word of a table has; None where it may be of any: without a name, with one that isn't read, or for what isn't
    there."""
    found: Set[Name] = set()
    for symbol in names_at(elf).get(word, ()):
        if symbol.startswith(PURE) or (name := name_of(symbol)) is None:
            return None
        found.add(name)
    return found or None


def of_class(elf: Elf, point: Point, name: str) -> Dict[int, str]:
    """The places of a table at which virtual functions of a class stand, with the last parts of their names."""
    return {place: it.last for place, word in enumerate(point.words) for it in names_of(elf, word) or () if it.of_class == name}


def may_be_at(elf: Elf, point: Point, place: int, last: str) -> bool:
    """Whether a function of a name, or one that may have it, stands at a place."""
    word = point.at(place)
    names = None if word is None else names_of(elf, word)
    return place < len(point.words) and (names is None or any(it.last == last for it in names))


def fitting(elf: Elf, function: int, name: Name, is_entered_by_tables: bool) -> Tuple[Point, ...]:
    """The points of tables that may be of a class, or of one that derives from it, by the places at which a known table of the class has the
    functions of it. `function`: one of the class, and `is_entered_by_tables`: whether it is entered by tables alone."""
    known = [(point, places) for point in points(elf) if (places := of_class(elf, point, name.of_class))]
    own = [(point, places) for point, places in known if function in point.words]
    models = own if any(function in it.words for it in points(elf)) else known
    return tuple(it for it in points(elf) if (not is_entered_by_tables or function in it.words)
                 and any(all(may_be_at(elf, it, place, last) for place, last in places.items()) for _, places in models))
