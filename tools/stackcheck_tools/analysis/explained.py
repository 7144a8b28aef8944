"""The steps of the search of lines as values: why each line was added or taken back."""

from __future__ import annotations

from typing import Iterable, Tuple

from stackcheck_tools.analysis.added import by_tool
from stackcheck_tools.analysis.questions import Because
from stackcheck_tools.finding import Step
from stackcheck_tools.firmware.firmware import Firmware
from stackcheck_tools.spec.lines import Lines


def told(firmware: Firmware, lines: Lines, than: Lines) -> Tuple[str, ...]:
    """The lines that others lack, or have with other items: as a spec has them, else by words."""
    more = {key: items for key, items in lines.items.items() if than.items.get(key) != items}
    return tuple(it.spec or it.assumption for it in by_tool(firmware, Lines(lines.device, more)))


def steps(firmware: Firmware, found: Iterable[Because]) -> Tuple[Step, ...]:
    return tuple(Step(it.why, told(firmware, it.after, it.before), told(firmware, it.before, it.after)) for it in found)
