"""A firmware with its device, and how its places are called."""

from __future__ import annotations

from typing import Dict, Optional, Set

from stackcheck_tools.firmware import debug_lines
from stackcheck_tools.firmware.cxx_names import written
from stackcheck_tools.firmware.devices import Misuse, device_of
from stackcheck_tools.firmware.elf import Elf, Symbol
from stackcheck_tools.firmware.names import base, shown
from stackcheck_tools.firmware.opcodes import jump_target


LEAST = 0x8000  # bytes that the program reads on a device with less flash too, and judges itself
DEFAULT = "BADISR_vect (__bad_interrupt)"  # the one handler of all vectors that have no other


class Firmware:
    """An ELF file, the device that it was linked for, and the one as which it is taken."""

    def __init__(self, path: str, device: Optional[str], elf: Optional[Elf] = None) -> None:
        """With its ELF file, or with what was read of another kind of file, whose raw image is `image` then, and `lost` what it doesn't
        tell."""
        self.path, self.elf, self.image = path, elf or Elf(path), path
        self.lost: Optional[str] = None
        self.linked_for, self.device = device_of(self.elf, path, device)
        self.lines = debug_lines.of(self.elf)
        self.names: Dict[str, Set[int]] = {}

    def check_start(self) -> None:
        """Refuses a firmware that doesn't start at address 0, or doesn't fit into the flash of its device."""
        end = 2 * self.device.words
        begin = min((begin for begin, _ in self.elf.placed), default=0)
        if begin:
            raise Misuse(f"{self.path}: this is a boot loader at {begin:04X}: nothing stands at address 0, where the bound takes the chip "
                         f"to start, and code that "
                         "writes flash has no bound; give the program that it starts", "SB004")
        for _, last in self.elf.placed:
            if last > max(end, LEAST):
                raise Misuse(f"{self.path} has bytes up to {last - 1:04X}, and the flash of {self.device.name} ends at {end - 1:04X}: it "
                             f"was linked for another device", "SB005")

    def name(self, symbol: Symbol) -> str:
        """A function's name as a reader knows it; with the types of its parameters where another one has the same."""
        if not self.names:
            for it in self.elf.code:
                self.names.setdefault(shown(it), set()).add(it.address)
        own = shown(symbol)
        return own if len(self.names[own]) < 2 else written(base(symbol.name)) or symbol.name

    def place(self, word: int) -> str:
        """Function, offset and source line of a word address."""
        symbol, line = self.elf.symbol_at(2 * word), self.lines.at(2 * word)
        return " ".join([f"{self.name(symbol)}+{2 * word - symbol.address}" if symbol else "-", *([line] if line else [])])

    def function(self, word: int) -> str:
        """The name of the function at a word, of a handler that of its vector; the word itself without one."""
        symbol = self.elf.symbol_at(2 * word)
        if symbol is None:
            return self.device.word(word)
        return self.vector_of(symbol.name) or self.name(symbol)

    def vector_of(self, name: str) -> Optional[str]:
        """`TIMER0_OVF_vect` of `__vector_16`; None of another name."""
        number = name[len("__vector_"):] if name.startswith("__vector_") else ""
        return self.device.vectors.get(int(number) + 1) if number.isdecimal() else None

    def handler(self, vector: int) -> str:
        """The name of a vector, and the function that its word jumps to."""
        target = jump_target(self.elf, self.device.vector_word(vector))
        symbol = self.elf.symbol_at(2 * target) if target is not None else None
        name = self.device.vectors[vector]
        return f"{name} ({symbol.name})" if symbol else name

    def place_of_line(self, kind: str, word: int) -> str:
        """Where a line of an assumption file or of `premises` stands: a `never` line at a vector, each other one at its site."""
        vector = self.device.vector_at(word) if kind == "never" else None
        return self.handler(vector) if vector else self.place(word)

    def instance(self, kind: str, entry: int, name: Optional[str]) -> str:
        """What an instance is called: its function, its vector, or the start."""
        if kind == "root":
            return "reset"
        if kind != "call":
            name = self.handler(int(kind[1:]))
            return DEFAULT if name.endswith(DEFAULT[-len("(__bad_interrupt)"):]) else name
        symbol = self.elf.symbol_at(2 * entry)
        if symbol and symbol.address == 2 * entry:
            return self.name(symbol)
        return name or (symbol.name if symbol else self.device.word(entry))
