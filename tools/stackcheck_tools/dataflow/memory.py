"""What bytes of SRAM may be made of: all that is written there, by name or through pointers, with what stands there first."""

from __future__ import annotations

from typing import Dict, Iterator, NamedTuple, Optional, Set, Tuple

from stackcheck_tools.dataflow.addresses import Addresses
from stackcheck_tools.dataflow.origin import (
    ALONE,
    CONSTANTS,
    KEPT,
    MOVED,
    NUMBER,
    NUMBERS,
    OBJECTS,
    OF_CLASS,
    POINTERS,
    ZERO,
    few,
    object_bit,
)

NAMELESS = -1  # the object of bytes at known addresses in which no object has a name
IS_POINTER = POINTERS | ALONE
FAR = 256  # bytes of an object whose first values are looked at
POINTER_BYTES = 2


class Place(NamedTuple):
    """A byte of an object at a distance from its begin; where `is_known` isn't, one at this distance or farther."""

    number: int
    distance: int
    is_known: bool

    def may_be(self, distance: int) -> bool:
        return self.distance == distance if self.is_known else self.distance <= distance


Written = Dict[Place, int]


class Memory:
    """An object is a number: one of the firmware's objects, or behind these the frame of a function as a whole, or a variable in it by the
    distance from the frame's begin at which its address is taken. `by_name`: what is written at known places of objects and of whole frames;
    `through`: through pointers that were made of them; `pushed`: what is pushed, which no pointer to an object reads. `known`: what an earlier
    look found; without it each object may hold pointers. `open`: whole frames of which a pointer leads out, to where arguments stand."""

    def __init__(self, told: Addresses, known: Optional["Memory"] = None) -> None:
        self.told, self.known = told, known
        self.by_name: Written = {}
        self.through: Written = {}
        self.pushed: Written = {}
        self.of: Dict[int, Set[Place]] = {}
        self.numbers: Dict[Tuple[int, Optional[int]], int] = {} if known is None else known.numbers
        self.variables: Dict[int, Dict[int, int]] = {} if known is None else known.variables  # of functions, by their distances
        self.places: Dict[int, Tuple[int, Optional[int]]] = {} if known is None else known.places
        self.open: Set[int] = set()
        self.firsts: Dict[int, int] = {} if known is None else known.firsts
        self.changed: Set[int] = set()  # whole objects in which something new was written
        if known is not None:
            for held, own in ((known.by_name, self.by_name), (known.through, self.through)):
                own.update({place: byte & POINTERS for place, byte in held.items()})
            self.of = {number: set(places) for number, places in known.of.items()}

    def frame(self, entry: int, distance: Optional[int] = None) -> int:
        """The number of a function's frame, or of the variable at a distance in it."""
        number = self.numbers.get((entry, distance))
        if number is None:
            number = self.numbers[entry, distance] = len(self.told.spans) + len(self.numbers)
            self.places[number] = entry, distance
            if distance is not None:
                self.variables.setdefault(entry, {})[distance] = number
        return number

    def frame_bit(self, entry: int, distance: Optional[int] = None) -> int:
        return object_bit(self.frame(entry, distance))

    def is_static(self, number: int) -> bool:
        return number < len(self.told.spans)

    def whole(self, number: int) -> int:
        """The frame in which a variable lies; another object is one itself."""
        return number if self.is_static(number) else self.frame(self.places[number][0])

    def is_small(self, number: int) -> bool:
        """Whether an object has no more than the two bytes of a pointer, so that what is written in it is written to this one."""
        begin, end = self.told.spans[number]
        return end - begin <= POINTER_BYTES

    def put(self, where: Written, place: Place, byte: int) -> None:
        byte = byte if byte & OBJECTS else byte & ~MOVED
        held = where.get(place, 0)
        met = few(held | byte)
        if met != held:
            where[place] = met
            if where is not self.pushed:
                self.of.setdefault(place.number, set()).add(place)
            self.changed.add(self.whole(place.number))

    def place_of(self, address: int) -> Place:
        """The place of a byte of static data."""
        number = self.told.number_at(address)
        return Place(NAMELESS, address, True) if number is None else Place(number, address - self.told.spans[number][0], True)

    def first(self, place: Place) -> int:
        """What a byte of static data holds first, or those from a place on."""
        begin, end = self.told.spans[place.number]
        if place.is_known:
            return self.told.first_value(begin + place.distance)
        if place.number not in self.firsts:
            self.firsts[place.number] = 0
            for address in range(begin, min(end, begin + FAR)):
                self.firsts[place.number] |= self.told.first_value(address)
        return self.firsts[place.number]

    def held(self, place: Place) -> int:
        """All that is known to be written at a place of an object, or anywhere in it, with what stands there first."""
        if not self.is_static(place.number):
            return self.held_in_frame(place)
        found = self.first(place)
        for it in self.of.get(place.number, ()):
            if not place.is_known or it.may_be(place.distance):
                found |= self.by_name.get(it, 0) | self.through.get(it, 0)
        return found

    def held_in_frame(self, place: Place) -> int:
        """The same of a frame, or of a variable in it, which ends where the next one begins whose address is taken."""
        entry, begin = self.places[place.number]
        whole, variables = self.frame(entry), self.variables.get(entry, {})
        end = min((it for it in variables if begin is not None and it > begin), default=None)
        found = 0
        for own, one in [(0, place.number)] if begin is not None else [(0, whole), *variables.items()]:
            for it in self.of.get(one, ()):  # of a variable in the frame by its own distances
                found |= self.through.get(it, 0) if not place.is_known or it.may_be(place.distance - own) else 0
        for it in self.of.get(whole, ()):
            is_inside = begin is None or begin <= it.distance and (end is None or it.distance < end)
            if is_inside and (not place.is_known or it.distance == place.distance + (begin or 0)):
                found |= self.by_name.get(it, 0)
        return found

    def is_open(self, number: int) -> bool:
        """Whether arguments may stand in an object: it is a frame out of which a pointer leads, or lies above one."""
        if self.is_static(number):
            return False
        distance = self.places[number][1]
        return distance > 0 if distance is not None else number in self.open

    def is_pure(self, place: Place) -> bool:
        """Whether an earlier look has found nothing but numbers written at a place."""
        return self.known is not None and not self.known.is_open(place.number) and not self.known.held(place) & IS_POINTER

    def has_purer(self) -> bool:
        """Whether something that an earlier look took to hold pointers holds none."""
        if self.known is None:
            return True
        pairs = ((self.by_name, self.known.by_name), (self.through, self.known.through))
        return any(byte & IS_POINTER and not now.get(place, 0) & IS_POINTER for now, before in pairs for place, byte in before.items())

    def through_pointer(self, place: Place) -> int:
        """What a byte is that is read through a pointer made of an object."""
        found = self.held(place)
        if self.is_open(place.number) or not self.is_pure(place) or found & IS_POINTER:
            return KEPT | (OF_CLASS if found & self.told.tables else 0)
        if not self.is_static(place.number):
            return NUMBER if found else KEPT  # what nothing was written to has no value in the language
        if not place.is_known and self.first(place) & CONSTANTS & ~ZERO and not self.is_overwritten(place):
            first = few(self.first(place))  # a table may have addresses of registers, as drivers have them of their ports
            return KEPT if first & NUMBER else KEPT | first
        return few(found)

    def is_overwritten(self, place: Place) -> bool:
        """Whether a pair that is read somewhere in an object may be one that a number was written to: at no greater distance where that isn't
        known, or by both its bytes."""
        known = set()
        for it in self.of.get(place.number, ()):
            if (self.by_name.get(it, 0) | self.through.get(it, 0)) & NUMBERS:
                if not it.is_known and it.distance <= place.distance:
                    return True
                known |= {it.distance} if it.is_known else set()
        return any(it + 1 in known for it in known)

    def written_through(self, place: Place) -> Iterator[int]:
        """Yields what is written through pointers to a known place; of an object that is a pointer or smaller, to any place of it."""
        for it in self.of.get(place.number, ()):
            if it in self.through and (it == place or not it.is_known and self.is_small(place.number)):
                yield self.through[it]

    def static(self, address: int) -> int:
        """What a byte at a known address is: all that is written there by name, and what stands there first; through pointers where
        nothing is by name."""
        place = self.place_of(address)
        if place.number == NAMELESS:
            return few(self.by_name[place] | self.told.first_value(address)) if place in self.by_name else KEPT
        if place in self.by_name or self.is_small(place.number):
            found = self.by_name.get(place, 0) | self.first(place)
            for byte in self.written_through(place):
                found |= byte
            return few(found)
        if any(it in self.through and it.may_be(place.distance) for it in self.of.get(place.number, ())):
            return self.through_pointer(place)
        return few(self.first(place))

    def by_address(self, entry: int, distance: int) -> int:
        """What is written at a distance in a frame through the addresses of its variables."""
        found = 0
        for begin, number in self.variables.get(entry, {}).items():
            is_begin = 0 <= distance - begin < POINTER_BYTES  # of a variable that is one pointer, perhaps
            for it in self.of.get(number, ()):
                if it == Place(number, distance - begin, True) or is_begin and it == Place(number, 0, False):
                    found |= self.through.get(it, 0)
        return found

    def in_frame(self, entry: int, distance: int) -> int:
        """What a byte at a known distance in a frame is, where the way doesn't tell it."""
        if (entry, None) not in self.numbers:
            return KEPT
        place = Place(self.numbers[entry, None], distance, True)
        if place in self.by_name or place in self.pushed:
            return few(self.by_name.get(place, 0) | self.pushed.get(place, 0) | self.through.get(place, 0) | self.by_address(entry, distance))
        return self.through_pointer(place)
