"""What a certificate permits stores and calls through pointers: what `premises --why` tells of places, and what the states of nodes say."""

from __future__ import annotations

from typing import Mapping, Set

from stackcheck_tools.analysis.causes import Cause
from stackcheck_tools.analysis.node_states import NodeStates
from stackcheck_tools.firmware import effects
from stackcheck_tools.firmware.effects import Z


class Permitted:
    """`premises --why` speaks of places alone, of protected registers, and of the first eight of these; a state may be left out of a
    certificate. So an address is permitted where neither excludes it."""

    def __init__(self, states: NodeStates, causes: Mapping[int, Cause]) -> None:
        self.states, self.causes, self.elf = states, causes, states.elf

    def is_fixed(self, word: int) -> bool:
        """Whether the pointer of the store at a word is one constant."""
        cause = self.causes.get(word)
        is_one = cause is not None and cause.number() is not None
        return is_one and isinstance(effects.at(self.elf, word), effects.Store) or self.states.is_fixed(word)

    def may_write(self, word: int, address: int) -> bool:
        """Whether the store through a pointer at a word may write an address."""
        store, cause = effects.at(self.elf, word), self.causes.get(word)
        if not isinstance(store, effects.Store):
            return False
        least, greatest = cause.pointer if cause and cause.pointer else (0, 0xFFFF)
        return least <= (address - store.more) & 0xFFFF <= greatest and self.states.may_write(word, address)

    def may_write_protected(self, word: int, address: int) -> bool:
        """The same of a register that is protected here: only at a place."""
        cause = self.causes.get(word)
        if cause is None or not cause.addresses:
            return False
        if address in cause.addresses:
            return True
        return cause.more and address > max(cause.addresses) and self.may_write(word, address)

    def numbers(self, word: int) -> Set[int]:
        """The numbers that the pointer of a call or jump is known to be, at all of its nodes or at some."""
        cause = self.causes.get(word)
        number = cause.number() if cause else None
        return self.states.known(word, Z) if number is None else {number}
