"""The lines of the assumption file as values: those that the spec gave, and those that this tool added."""

from __future__ import annotations

from typing import Dict, Iterator, List, Tuple

from stackcheck_tools.analysis.telling import line_of_spec
from stackcheck_tools.finding import Added
from stackcheck_tools.firmware import opcodes
from stackcheck_tools.firmware.firmware import Firmware
from stackcheck_tools.spec import scratch
from stackcheck_tools.spec.lines import Lines, name_of
from stackcheck_tools.spec.spec import MASKS, NOWHERE, PAIRS, UNASSUMED, is_unhandled

GIVEN, OWN = "spec", "tool"


def by_spec(firmware: Firmware, text: str) -> Iterator[Added]:
    """Yields the lines that the spec gave, by the text of their assumption file."""
    for line in text.splitlines():
        kind, *words = line.split()
        place = f"at {firmware.place_of_line(kind, int(words[0], 16))}" if words else ""
        yield Added(GIVEN, kind, None, line, place, kind not in UNASSUMED)


def own_never(firmware: Firmware, lines: Lines) -> Tuple[List[int], bool]:
    """The vectors of the `never` lines that weren't given, by number; and whether they are all that have no handler."""
    found = [firmware.device.vector_of(site) for site, kind in lines.written() if kind == "never"]
    return found, found == [it for it in firmware.device.vectors if is_unhandled(firmware.elf, firmware.device, it)]


def scratches(firmware: Firmware, lines: Lines) -> Iterator[Added]:
    """The `scratch` lines that weren't given, one for each function."""
    found: Dict[str, List[int]] = {}
    for site, kind in lines.written():
        if kind == scratch.KIND:
            found.setdefault(firmware.function(site), []).append(site)
    for name, words in found.items():
        symbol = firmware.elf.symbol_at(2 * words[0])
        pushes = opcodes.sites(firmware.elf, symbol, scratch.is_push) if symbol else []
        own = symbol and name_of(firmware.elf, symbol)
        spec = " ".join([scratch.KIND, own, *(str(pushes.index(it) + 1) for it in words)]) if own and set(words) <= set(pushes) else None
        yield Added(OWN, scratch.KIND, spec, ", ".join(lines.line(it, scratch.KIND) for it in words),
                    f"bytes that {name} pushes as scratch space", False)


def by_tool(firmware: Firmware, lines: Lines) -> Iterator[Added]:
    """Yields the lines that weren't given: `pairs` and `masks` first, the `frame` lines as one, and `never` lines of all vectors without a
    handler too."""
    for kind in (PAIRS, MASKS):
        if lines.has(NOWHERE, kind) and not lines.is_given(NOWHERE, kind):
            yield Added(OWN, kind, kind, kind, "", False)
    frames = [site for site, kind in lines.written() if kind == "frame"]
    if frames:
        many = f"at {len(frames)} place{'' if len(frames) == 1 else 's'}"
        yield Added(OWN, "frame", "frame @frames", ", ".join(lines.line(it, "frame") for it in frames), many, False)
    vectors, is_all = own_never(firmware, lines)
    is_all = is_all and len(vectors) > 1
    if is_all:
        yield Added(OWN, "never", "never @unhandled", ", ".join(lines.line(firmware.device.vector_word(it), "never") for it in vectors),
                    f"of {len(vectors)} vectors that have no handler", True)
    yield from scratches(firmware, lines)
    for site, kind in lines.written():
        if kind not in UNASSUMED and not (kind == "never" and is_all):
            place = firmware.place_of_line(kind, site)
            more = ", which says that it enables no interrupt" if kind == "store" and lines.of(site, kind) == {0} else ""
            yield Added(OWN, kind, line_of_spec(firmware, lines, site, kind), lines.line(site, kind),
                        f"at {firmware.device.word(site)} {place}{more}", True)
