"""What a byte is made of, as a set: the bits of one number. Bits 0 to 255 are constants; above them stand the marks below, and above these
one bit for each object. Ways that meet are joined by `or`."""

from __future__ import annotations

import functools
from typing import Iterable, List

CONSTANTS = (1 << 256) - 1
NUMBER = 1 << 256  # arithmetic of numbers, or an input
ALONE = 1 << 257  # a byte that was read from memory alone: what it belongs to isn't known
KEPT = 1 << 258  # a half of a pair that was read from memory as one
FLASH = 1 << 259  # the same, from a table in flash
MOVED = 1 << 260  # something was added to a pointer, or it was made inside its object
CODE = 1 << 261  # the address of a function
TABLE = 1 << 262  # the address of something in flash
OTHER = 1 << 263  # the address of an object without a name
LESS = 1 << 264  # a number less the address of an object
OF_CLASS = 1 << 265  # with `KEPT`: may be an object's pointer to its table of virtual functions, read from the object
VIRTUAL = 1 << 266  # with `KEPT`: may be a function that was read from such a table
FIRST_OBJECT = 267
LEAST_OBJECT = 1 << FIRST_OBJECT
OBJECTS = -LEAST_OBJECT | OTHER
MADE = OBJECTS | KEPT | FLASH | TABLE | OF_CLASS  # what stays a pointer if something is added to it
POINTERS = MADE | CODE
NUMBERS = CONSTANTS | NUMBER | ALONE
ZERO = 1  # the constant 0
MOST_CONSTANTS = 12  # that are told apart
MOST_SUMS = 24  # of constants that are worked out one by one
MOST_KEPT = 1 << 16  # results that are kept: few bytes come again and again


def object_bit(number: int) -> int:
    return 1 << FIRST_OBJECT + number


def objects(byte: int) -> List[int]:
    """The numbers of the objects with a name of which a byte may be made."""
    found, left = [], byte >> FIRST_OBJECT
    while left:
        low = left & -left
        found.append(low.bit_length() - 1)
        left ^= low
    return found


def constants(byte: int) -> List[int]:
    found, left = [], byte & CONSTANTS
    while left:
        low = left & -left
        found.append(low.bit_length() - 1)
        left ^= low
    return found


@functools.lru_cache(maxsize=MOST_KEPT)
def few(byte: int) -> int:
    """A byte of which too many constants are a number."""
    known = byte & CONSTANTS
    if known and (byte & NUMBER or bin(known).count("1") > MOST_CONSTANTS):
        return byte & ~CONSTANTS | NUMBER
    return byte


def of_constants(numbers: Iterable[int]) -> int:
    found = 0
    for it in numbers:
        found |= 1 << (it & 0xFF)
    return few(found)


def is_number(byte: int) -> bool:
    """Whether a byte may be no part of a pointer; one of which nothing is known counts as one."""
    return bool(byte & NUMBERS) or not byte


def carries_of(is_carried: bool) -> range:
    return range(2) if is_carried else range(1)


def doubled(byte: int, carries: bool) -> int:
    if byte & ~CONSTANTS:
        return NUMBER
    return of_constants(2 * it + carry for it in constants(byte) for carry in carries_of(carries))


def of_numbers(ours: int, theirs: int, sign: int, carries: bool) -> int:
    """The sum of two numbers: of constants the sums one by one."""
    if (ours | theirs) & (NUMBER | ALONE):
        return NUMBER
    first, last = constants(ours), constants(theirs)
    if len(first) * len(last) > MOST_SUMS:
        return NUMBER
    return of_constants(it + sign * (other + carry) for it in first for other in last for carry in carries_of(carries))


def without_null(byte: int, lower: int) -> int:
    """The numbers that a byte may be; of one that is a pointer or 0, none, since what is added to a null pointer has no meaning."""
    numbers = byte & NUMBERS
    return 0 if numbers == ZERO and byte & MADE and not lower & NUMBERS else numbers


@functools.lru_cache(maxsize=MOST_KEPT)
def plus(ours: int, theirs: int, carries: bool, lower: int) -> int:
    """A sum. `lower`: what the lower half became, of a higher one."""
    if not ours or not theirs:
        return 0
    pointers = ours & MADE | theirs & MADE
    numbers = without_null(ours, lower), without_null(theirs, lower)
    found = pointers
    if ours & LESS and theirs & MADE or theirs & LESS and ours & MADE:
        is_pointer = bool(numbers[0] or numbers[1] or ours & theirs & MADE)
        found = NUMBER | (found if is_pointer else found & ~OBJECTS)
    if ours & LESS and numbers[1] or theirs & LESS and numbers[0]:
        found |= LESS
    return ended(found, pointers, ours | theirs, of_numbers(*numbers, 1, carries) if all(numbers) else 0)


@functools.lru_cache(maxsize=MOST_KEPT)
def less(ours: int, theirs: int, carries: bool, lower: int) -> int:
    """A difference."""
    if not ours or not theirs:
        return 0
    own, other = ours & MADE, theirs & MADE
    numbers = without_null(ours, lower), without_null(theirs, lower)
    found = own if numbers[1] or other & ~OBJECTS else 0
    if own and other:
        found |= NUMBER
    if numbers[0] and other:
        found |= other & ~OBJECTS | (LESS if other & OBJECTS else 0)
    if ours & LESS and numbers[1]:
        found |= LESS
    return ended(found, found & MADE, ours | theirs, of_numbers(*numbers, -1, carries) if all(numbers) else 0)


def ended(found: int, pointers: int, both: int, numbers: int) -> int:
    """What a sum or difference of all these is."""
    found |= (MOVED if pointers else 0) | (NUMBER if both & CODE else 0) | numbers
    return few(found) or NUMBER


@functools.lru_cache(maxsize=MOST_KEPT)
def mixed(ours: int, theirs: int, operation: str) -> int:
    """`and`, `or`, `xor` of two bytes."""
    if not ours or not theirs:
        return 0
    found = 0 if ours & POINTERS and theirs & POINTERS else (ours | theirs) & MADE
    if operation == "xor":
        found &= ~(KEPT | FLASH | OF_CLASS)  # as both halves of a number are swapped
    is_cleared = operation == "and" and ZERO in (ours, theirs)
    if is_cleared:
        return ZERO
    if is_number(ours) and is_number(theirs) or not found:
        first, last = constants(ours), constants(theirs)
        if (ours | theirs) & ~CONSTANTS or len(first) * len(last) > MOST_SUMS:
            found |= NUMBER
        else:
            apply = {"and": int.__and__, "or": int.__or__, "xor": int.__xor__}[operation]
            found |= of_constants(apply(it, other) for it in first for other in last)
    return few(found)


@functools.lru_cache(maxsize=MOST_KEPT)
def negated(byte: int, is_complement: bool) -> int:
    """`com` and `neg`."""
    if not byte:
        return 0
    numbers = NUMBER if byte & (NUMBER | ALONE | CODE) else of_constants(~it if is_complement else -it for it in constants(byte))
    return few(byte & MADE | numbers) or NUMBER


@functools.lru_cache(maxsize=MOST_KEPT)
def shifted(byte: int, shifts: int, carries: bool) -> int:
    """What `lsr`, `ror` (with `shifts`) and all else that moves bits leave: a number, but of a function's byte address that of a word."""
    if not byte:
        return 0
    if shifts and byte & CODE and byte & TABLE:
        return CODE | TABLE
    if shifts and not carries and not byte & ~CONSTANTS:
        return of_constants(it >> 1 for it in constants(byte))
    return NUMBER


def alone(byte: int) -> int:
    """A byte that was read from memory for itself."""
    return byte & ~(KEPT | OF_CLASS | VIRTUAL) | ALONE if byte & KEPT else byte


def paired(byte: int) -> int:
    """A byte that was read from memory as a half of a pair, of which the other half may be one of a pointer."""
    return byte & ~ALONE | KEPT if byte & ALONE else byte


SHOWN = {"number": NUMBER, "alone": ALONE, "kept": KEPT, "flash": FLASH, "moved": MOVED, "code": CODE, "table": TABLE,
         "other": OTHER, "less": LESS, "of class": OF_CLASS, "virtual": VIRTUAL}


def shown(byte: int) -> str:
    """A byte in words."""
    found = [name for name, mark in SHOWN.items() if byte & mark]
    return "|".join([*found, *(f"{it:02X}" for it in constants(byte)), *(f"object {it}" for it in objects(byte))]) or "nothing"
