"""Stores through pointers that a correct program may mean for a register of the core: SREG, the stack pointer, or the one with IVSEL."""

from __future__ import annotations

import functools
from typing import Dict, FrozenSet, NamedTuple, Set

from stackcheck_tools.analysis.permitted import Permitted
from stackcheck_tools.dataflow.numbers import Pointers
from stackcheck_tools.firmware import opcodes
from stackcheck_tools.firmware.devices import Device
from stackcheck_tools.firmware.elf import Elf
from stackcheck_tools.firmware.taken import numbers_in_data, parts
from stackcheck_tools.spec.lines import Lines

FIXED = "is this address"

UNMEANT = 32  # the addresses below are of registers that compiled code computes with


class Look(NamedTuple):
    """What is known of pointers: what a certificate permits them, and what they are made of."""

    permitted: Permitted
    pointers: Pointers


def core(device: Device) -> Dict[int, str]:
    """The registers of the core by their addresses, with the one that moves the vectors."""
    found = {address: name for name, address in device.core.items() if address >= UNMEANT}
    return {**found, device.moving.address: device.moving.registers[0]} if device.moving else found


@functools.lru_cache(maxsize=None)
def bytes_loaded(elf: Elf) -> FrozenSet[int]:
    """The bytes that code loads as the lower half of a pair."""
    return frozenset(opcodes.ldi(opcode)[1] for part in parts(elf) for _, opcode in part
                     if opcodes.is_ldi(opcode) and opcodes.ldi(opcode)[0] % 2 == 0)


def stands(elf: Elf, address: int) -> bool:
    """Whether a number may be meant that stands in the file: what inputs of trial runs and lists to try are made from. No answer rests on
    it."""
    return address in numbers_in_data(elf) or address < 0x100 and address in bytes_loaded(elf)


def is_enabling(look: Look, lines: Lines, word: int) -> bool:
    """Whether a store may write a register that enables interrupts through a number, and its line doesn't list it."""
    left = look.permitted.elf.chip.enabling - lines.of(word, "store")
    return any(look.permitted.may_write_protected(word, it) and look.pointers.why_written(word, it) for it in sorted(left))


def may_move_unseen(device: Device, lines: Lines) -> bool:
    """Whether no place tells where IVSEL may be set."""
    return device.moving is not None and device.is_first() and not lines.has_masks()


def may_write(permitted: Permitted, device: Device, lines: Lines, word: int, address: int) -> bool:
    """Whether the certificate lets a store write a register of the core; that with IVSEL only where the byte may have the bit."""
    if device.moving is None or address != device.moving.address:
        return permitted.may_write_protected(word, address)
    if may_move_unseen(device, lines):
        return permitted.may_write(word, address) and permitted.states.may_store(word, device.moving.mask.bit_length() - 1)
    return word in permitted.causes and permitted.causes[word].moves


def written(look: Look, device: Device, lines: Lines, word: int) -> Dict[str, str]:
    """The names of the registers of the core that a store may write through a pointer that is made of a number, and why; of a pointer that
    is one constant, those that the list of places names."""
    permitted, listed = look.permitted, lines.of(word, "store")
    registers = [(address, name) for address, name in sorted(core(device).items()) if address not in listed]
    if permitted.is_fixed(word):
        return {name: FIXED for address, name in registers if word in permitted.causes and address in permitted.causes[word].addresses}
    reached = [(address, name) for address, name in registers if may_write(permitted, device, lines, word, address)]
    return {name: why for address, name in reached if (why := look.pointers.why_written(word, address))}


def found(look: Look, device: Device, lines: Lines) -> Dict[int, Dict[str, str]]:
    """The registers of the core that stores may be meant for, and why, by the words of the stores."""
    told: Dict[int, Dict[str, str]] = {}
    permitted = look.permitted
    for word in sorted({*permitted.causes, *(permitted.states.at if may_move_unseen(device, lines) else ())}):
        if opcodes.is_pointer_store(permitted.elf.word(word)) and (names := written(look, device, lines, word)):
            told[word] = names
    return told


def seeds(elf: Elf, device: Device) -> Set[int]:
    """The bytes by which the firmware names registers of the core whose addresses stand in it, as addresses of data and of inputs and
    outputs."""
    return {it & 0xFF for address in core(device) if stands(elf, address) for it in (address, address - 0x20)}
