"""Lines of a spec that stand for words of the call: `limit N`, `margin N` and `device NAME`. A word of the call goes before its line."""

from __future__ import annotations

from typing import Dict, NamedTuple, Optional

from stackcheck_tools.firmware.names import SpecFault

LIMIT, MARGIN, DEVICE = "limit", "margin", "device"
FORMS = {LIMIT: "limit N", MARGIN: "margin N", DEVICE: "device NAME"}


class Line(NamedTuple):
    """What a line says, and its number."""

    value: str
    number: int


class Settings(NamedTuple):
    """The lines of a spec, as far as there are any."""

    limit: Optional[Line] = None
    margin: Optional[Line] = None
    device: Optional[Line] = None


def is_one(kind: str) -> bool:
    return kind in FORMS


def read(text: str) -> Settings:
    """The lines of a spec's text."""
    found: Dict[str, Line] = {}
    for number, line in enumerate(text.splitlines(), start=1):
        words = line.partition("#")[0].split()
        if not words or not is_one(words[0]):
            continue
        kind, *rest = words
        if len(rest) != 1 or kind != DEVICE and not (rest[0].isascii() and rest[0].isdecimal()):
            raise SpecFault(f"expected `{FORMS[kind]}`", number)
        others = (kind,) if kind == DEVICE else (LIMIT, MARGIN)
        if earlier := next((found[it] for it in others if it in found), None):
            raise SpecFault(f"line {earlier.number} says {'the device' if kind == DEVICE else 'how deep the stack may be'} already", number)
        found[kind] = Line(rest[0], number)
    return Settings(**found)
