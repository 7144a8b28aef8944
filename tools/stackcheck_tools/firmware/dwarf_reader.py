"""Reads numbers and texts of debug information, one behind the other."""

from __future__ import annotations

import struct


class Reader:
    def __init__(self, data: bytes, at: int = 0) -> None:
        self.data, self.at = data, at

    def take(self, form: str) -> int:
        value = int(struct.unpack_from("<" + form, self.data, self.at)[0])
        self.at += struct.calcsize(form)
        return value

    def text(self) -> str:
        end = self.data.index(b"\0", self.at)
        text, self.at = self.data[self.at:end].decode("utf8", "replace"), end + 1
        return text

    def number(self, is_signed: bool = False) -> int:
        """A number in LEB128."""
        value = shift = 0
        while True:
            byte = self.take("B")
            value |= (byte & 0x7F) << shift
            shift += 7
            if byte < 0x80:
                return value - (1 << shift) if is_signed and byte & 0x40 else value
