"""The tool `flagged`."""

from __future__ import annotations

import tempfile
from typing import Iterator, NamedTuple, Optional, Set

from stackcheck_tools.analysis.dialogue import Dialogue
from stackcheck_tools.analysis.runs import Stop
from stackcheck_tools.analysis.state import Facts
from stackcheck_tools.analysis.stops import admitted
from stackcheck_tools.analysis.telling import line_of_spec, text_of_stop, why_not
from stackcheck_tools.analysis.trials import Trials, handled, next_stop, told_apart
from stackcheck_tools.firmware.firmware import Firmware
from stackcheck_tools.habits import FAULTS, MISUSE, Words, tell
from stackcheck_tools.spec.lines import Lines
from stackcheck_tools.spec.spec import assumptions

DOCUMENT = """Simulates the firmware to find flagged steps, which no bound covers.

usage: flagged FW [--assume A | --spec SPEC] [--device NAME]

Runs the firmware with several bytes for memory and inputs and with each vector taken along the way. Prints each stop once, with its place
and the assumption line that admits it: `prove W` if the analysis then knows the pointer, otherwise `store W A ..`; a transfer has a `jump`
line. The entry of a vector with a `never` line is a transfer that no line admits. `spec:` precedes the same as a line of a spec. The runs then
go on with these lines. The search is incomplete: no output does not mean that no step is flagged.
Status 0: none was found; 1: some were; 3: usage error, or a file or the program is missing or invalid.
"""


class Found(NamedTuple):
    """A flagged step, the kind of the line that admits it (None if none does), and the lines with that line."""

    stop: Stop
    kind: Optional[str]
    lines: Lines


def found(firmware: Firmware, lines: Lines, folder: str) -> Iterator[Found]:
    """Yields each flagged step once; the runs go on with the line that admits it."""
    facts, dialogue = Facts(firmware), Dialogue(firmware, folder)
    seen: Set[Stop] = set()
    vectors, told = tuple(handled(firmware.elf, firmware.device)), told_apart(firmware.elf, firmware.device)
    while stop := dialogue.run(next_stop(Trials(lines, vectors, frozenset(), told), seen)):
        seen.add(stop)
        lines, kind = dialogue.run(admitted(facts, lines, stop))
        yield Found(stop, kind, lines)


def text_of(firmware: Firmware, it: Found) -> Iterator[str]:
    yield text_of_stop(firmware, it.stop)
    if not it.kind:
        yield f"  {why_not(firmware, it.stop)}"
        return
    yield f"  {it.lines.line(it.stop.word, it.kind)}"
    added = Lines(firmware.device).put(it.stop.word, it.kind, {it.stop.other} if it.kind in ("jump", "store") else ())
    if spec := line_of_spec(firmware, added, it.stop.word, it.kind):
        yield f"  spec: {spec}"


def main() -> int:
    parser = Words("flagged", DOCUMENT)
    parser.add_argument("firmware")
    lines = parser.add_mutually_exclusive_group()
    lines.add_argument("--assume")
    lines.add_argument("--spec")
    parser.add_argument("--device")
    words = parser.parse_args()
    count = 0
    try:
        firmware = Firmware(words.firmware, words.device)
        text = ""
        if words.assume or words.spec:
            with open(words.assume or words.spec, encoding="utf8") as file:
                text = file.read() if words.assume else assumptions(firmware.elf, file.read(), firmware.device)
        with tempfile.TemporaryDirectory() as folder:
            given = Lines.read(firmware.device, text).none_given()  # a line grows by what admits a stop
            for it in found(firmware, given, folder):
                count += 1
                print("\n".join(text_of(firmware, it)), flush=True)
    except BrokenPipeError:
        raise
    except FAULTS as fault:
        tell("flagged", fault, words.spec)
        return MISUSE
    print(f"{count} found; the search is incomplete")
    return 1 if count else 0
