"""Source lines of byte addresses, from the debug information of an ELF file: DWARF line tables of versions 2 to 5, and stabs."""

from __future__ import annotations

import functools
import os
import shutil
import struct
import subprocess
from typing import Callable, Dict, Iterable, Iterator, List, Optional, Tuple, Union

from stackcheck_tools.firmware import folders
from stackcheck_tools.firmware.dwarf_reader import Reader
from stackcheck_tools.firmware.elf import Elf
from stackcheck_tools.firmware.paths import found

PATH, FOLDER = 1, 2  # what a list of version 5 tells of a file
STRING, BLOCK, STRP, UDATA, LINE_STRP = 0x08, 0x09, 0x0E, 0x0F, 0x1F  # forms of its values
Row = Tuple[int, int, str, int]  # begin and end of some code by byte addresses, its file and line
SIZES = {0x0B: 1, 0x05: 2, 0x06: 4, 0x07: 8, 0x1E: 16}  # bytes of its numbers, by their forms


def dwarf_tables(data: bytes, texts: bytes = b"", line_texts: bytes = b"") -> Iterator[Tuple[int, Iterator[Row]]]:
    """Yields the offset of each line table and its rows: (begin, end, file, line). A table of another version is passed over. Texts are
    those of `.debug_str` and `.debug_line_str`, to which version 5 refers."""
    at = 0
    while at + 4 <= len(data):
        reader, offset = Reader(data, at), at
        at += 4 + reader.take("I")
        version = reader.take("H")
        if 2 <= version <= 5:
            yield offset, unit_rows(reader, at, version, (texts, line_texts))


def dwarf_rows(data: bytes, texts: bytes = b"", line_texts: bytes = b"") -> Iterator[Row]:
    """Yields the rows of all line tables."""
    for _, rows in dwarf_tables(data, texts, line_texts):
        yield from rows


def formed(reader: Reader, form: int, texts: Tuple[bytes, bytes]) -> Union[int, str, None]:
    """A value of version 5 by its form; nothing of one that isn't needed here."""
    if form == STRING:
        return reader.text()
    if form in (STRP, LINE_STRP):
        return Reader(texts[form == LINE_STRP], reader.take("I")).text()
    if form == UDATA:
        return reader.number()
    if form in SIZES:
        value = int.from_bytes(reader.data[reader.at:reader.at + SIZES[form]], "little")
        reader.at += SIZES[form]
        return value
    if form == BLOCK:
        size = reader.number()
        reader.at += size
        return None
    raise ValueError


def listed(reader: Reader, texts: Tuple[bytes, bytes]) -> List[Tuple[str, int]]:
    """The folders or files of a head of version 5: name and number of the folder."""
    forms = [(reader.number(), reader.number()) for _ in range(reader.take("B"))]
    found: List[Tuple[str, int]] = []
    for _ in range(reader.number()):
        values = {kind: formed(reader, form, texts) for kind, form in forms}
        found.append((str(values.get(PATH) or ""), int(values.get(FOLDER) or 0)))
    return found


class Header:
    """What the head of a line table tells; the reader stands behind it."""

    def __init__(self, reader: Reader, version: int, texts: Tuple[bytes, bytes]) -> None:
        if version == 5:
            reader.at += 2  # the sizes of an address and of a segment selector
        length = reader.take("I")
        start = reader.at + length
        self.step = reader.take("B")
        if version >= 4:
            reader.take("B")
        reader.take("B")
        self.base, self.span, self.special = reader.take("b"), reader.take("B"), reader.take("B")
        self.lengths = [reader.take("B") for _ in range(self.special - 1)]
        if version == 5:
            self.folders = [name for name, _ in listed(reader, texts)]
            self.files = [os.path.join(self.folders[folder] if folder < len(self.folders) else "", name)
                          for name, folder in listed(reader, texts)]
            reader.at = start
            return
        self.folders = [""]
        while folder := reader.text():
            self.folders.append(folder)
        self.files = [""]
        while name := reader.text():
            self.add_file(reader, name)
        reader.at = start

    def add_file(self, reader: Reader, name: str) -> None:
        folder = reader.number()
        self.files.append(os.path.join(self.folders[folder] if folder < len(self.folders) else "", name))
        for _ in range(2):
            reader.number()


class Place:
    """The registers of a line table's program: address, file and line."""

    def __init__(self, head: Header) -> None:
        self.head = head
        self.reset()

    def reset(self) -> None:
        self.address, self.file, self.line = 0, 1, 1

    def special(self, code: int) -> None:
        self.address += (code - self.head.special) // self.head.span * self.head.step
        self.line += self.head.base + (code - self.head.special) % self.head.span

    def extended(self, reader: Reader) -> bool:
        """An extended code; whether it ends a sequence."""
        after = reader.number() + reader.at
        kind = reader.take("B")
        if kind == 2:
            self.address = int.from_bytes(reader.data[reader.at:after], "little")
        elif kind == 3:
            self.head.add_file(reader, reader.text())
        reader.at = after
        return kind == 1

    def standard(self, code: int, reader: Reader) -> None:
        if code == 2:
            self.address += reader.number() * self.head.step
        elif code == 3:
            self.line += reader.number(is_signed=True)
        elif code == 4:
            self.file = reader.number()
        elif code == 8:
            self.address += (255 - self.head.special) // self.head.span * self.head.step
        elif code == 9:
            self.address += reader.take("H")
        else:
            for _ in range(self.head.lengths[code - 1]):
                reader.number()

    def name(self) -> str:
        return self.head.files[self.file] if self.file < len(self.head.files) else ""


def unit_rows(reader: Reader, end: int, version: int, texts: Tuple[bytes, bytes]) -> Iterator[Row]:
    """Yields the rows of one line table: each reaches up to the next one, or to the end of its sequence."""
    head = Header(reader, version, texts)
    place, last = Place(head), None
    while reader.at < end:
        code = reader.take("B")
        is_end = code == 0 and place.extended(reader)
        if code >= head.special:
            place.special(code)
        elif code > 1:
            place.standard(code, reader)
        if is_end or code == 1 or code >= head.special:
            if last and last[0] < place.address:
                yield last[0], place.address, last[1], last[2]
            last = None if is_end else (place.address, place.name(), place.line)
        if is_end:
            place.reset()


def stab_rows(stabs: bytes, names: bytes, end_of: Callable[[int], int]) -> Iterator[Row]:
    """Yields (begin, end, file, line) of each line entry of stabs. Offsets count from the function's begin; `end_of` gives its end."""
    file, function, base, last = "", 0, 0, None
    unit = 0
    for at in range(0, len(stabs) - 11, 12):
        name, kind, _, value, number = struct.unpack_from("<IBBHI", stabs, at)
        if kind == 0x00:
            base, unit = unit, unit + number
        elif kind in (0x64, 0x84):
            if kind == 0x64 and last:
                yield last[0], end_of(last[0]), last[1], last[2]
                last = None
            text = Reader(names, base + name).text()
            file = text if text and not text.endswith("/") else file
        elif kind == 0x24:
            text = Reader(names, base + name).text()
            if text and last:
                yield last[0], end_of(last[0]), last[1], last[2]
                last = None
            function = number if text else function
        elif kind == 0x44:
            place = function + number
            if last and last[0] < place:
                yield last[0], place, last[1], last[2]
            last = (place, file, value)


class Lines:
    """The source lines of an ELF file."""

    def __init__(self, elf: Elf, path: str) -> None:
        self.path = path
        self.has_vectors = elf.all.get("__vectors") == 0
        self.places: Dict[int, Optional[Tuple[str, int]]] = {}
        self.folders: Dict[int, str] = {}  # of the compiler, by byte addresses
        self.paths: Dict[Tuple[str, str], str] = {}
        tables = folders.by_table(elf)
        try:
            for offset, rows in dwarf_tables(*(elf.section(it) for it in (".debug_line", ".debug_str", ".debug_line_str"))):
                self.hold(rows, tables.get(offset, ""))
            self.hold(stab_rows(elf.section(".stab"), elf.section(".stabstr"), lambda at: self.end_of(elf, at)))
        except (struct.error, ValueError, IndexError):
            pass  # damaged debug information tells what was read so far
        self.has_rows = bool(self.places)
        self.other = shutil.which("avr-addr2line")

    @staticmethod
    def end_of(elf: Elf, address: int) -> int:
        """The end of the function at a byte address."""
        symbol = elf.symbol_at(address)
        return elf.extent(symbol)[1] if symbol else address

    def hold(self, rows: Iterable[Row], folder: str = "") -> None:
        """Holds the rows by byte address, with the folder in which the compiler ran. A function that the linker has left out has rows from
        0 on, where the vectors stand."""
        left_out = None
        for begin, end, file, line in rows:
            left_out = end if self.has_vectors and begin in (0, left_out) else None
            for address in range(begin, end if line and left_out is None else begin):
                if address not in self.places:
                    self.places[address] = (file, line)
                    if folder:
                        self.folders[address] = folder

    def path_of(self, address: int, name: str) -> str:
        """The path of a source file, whose name the debug information has."""
        key = self.folders.get(address, ""), name
        if key not in self.paths:
            self.paths[key] = found(*key)
        return self.paths[key]

    def source(self, address: int) -> Optional[Tuple[str, int]]:
        """The path and the line of a byte address; None where nothing tells them."""
        held = self.held(address)
        return held and (self.path_of(address, held[0]), held[1])

    def held(self, address: int) -> Optional[Tuple[str, int]]:
        """The name of the file and the line of a byte address as the debug information has them; None where nothing tells them."""
        if self.has_rows or address in self.places or not self.other:
            return self.places.get(address)
        said = subprocess.run([self.other, "-e", self.path, hex(address)], capture_output=True, text=True).stdout.split(" (")[0].strip()
        path, _, line = said.rpartition(":")
        self.places[address] = (path, int(line)) if path and line.isdecimal() and "?" not in said else None
        return self.places[address]

    def at(self, address: int) -> Optional[str]:
        """`file:line` of a byte address, the file without its folders; None where nothing tells it."""
        held = self.held(address)
        return f"{os.path.basename(held[0])}:{held[1]}" if held else None

    def words(self, file: str, line: int) -> List[int]:
        """The words of the instructions of a line of a file, which is named with as much of its path as tells it; none without line
        tables."""
        return sorted({at // 2 for at, it in self.places.items() if it and it[1] == line and ("/" + it[0]).endswith("/" + file)})


@functools.lru_cache(maxsize=None)
def of(elf: Elf) -> Lines:
    """The source lines of a file, which are read once."""
    return Lines(elf, elf.path)
