"""Lines of a spec for lines of an assumption file, and flagged steps in words."""

from __future__ import annotations

from typing import AbstractSet, Optional

from stackcheck_tools.analysis.runs import Stop
from stackcheck_tools.firmware import candidates
from stackcheck_tools.firmware.elf import Elf
from stackcheck_tools.firmware.firmware import Firmware
from stackcheck_tools.firmware.targets import constructors, tables
from stackcheck_tools.spec.lines import Lines, spec_line


def names_of_tables(elf: Elf, items: AbstractSet[int]) -> Optional[str]:
    """`@constructors` and `@tables` where they are these words; None else."""
    known = {"@constructors": candidates.or_none(constructors, elf), "@tables": candidates.or_none(tables, elf)}
    found = [name for name, words in known.items() if words and words <= items]
    return " ".join(found) if found and set().union(*(known[it] for it in found)) == items else None


def line_of_spec(firmware: Firmware, lines: Lines, site: int, kind: str) -> Optional[str]:
    """The line of a spec for a line of an assumption file; None where it has none."""
    names = names_of_tables(firmware.elf, lines.of(site, kind)) if kind == "jump" else None
    return spec_line(firmware.elf, firmware.device, lines, site, kind, names)


def text_of_stop(firmware: Firmware, stop: Stop) -> str:
    """A flagged step: its kind, the word, the address or target, and the place."""
    is_data = stop.kind in ("live", "protected")
    other = (f" {stop.other:04X}" if is_data else f" {firmware.device.word(stop.other)}") if stop.has_other() else ""
    register = firmware.device.register_name(stop.other) if stop.kind == "protected" else ""
    name = f" ({register})" if register else f" ({firmware.place(stop.other)})" if stop.kind == "transfer" else ""
    return f"{stop.kind} {firmware.device.word(stop.word)}{other}{name} at {firmware.place(stop.word)}"


def why_not(firmware: Firmware, stop: Stop) -> str:
    """Why no line admits a flagged step."""
    if stop.kind == "live":
        why = "a live byte of the stack is written"
    elif stop.kind == "moved":
        why = "the bit IVSEL is set, which moves the vectors"
    elif stop.kind == "transfer" and firmware.device.vector_at(stop.other) is None:
        why = "a line names the calls there, or how deep they go"
    else:
        why = "a `never` line names this vector"
    return f"no line admits it: {why}"
