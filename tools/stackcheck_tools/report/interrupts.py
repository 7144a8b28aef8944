"""What each vector costs: the bound of the same firmware in which it is never entered, as `check` accepts it."""

from __future__ import annotations

import os
from typing import List, Optional, Tuple

from stackcheck_tools.analysis.outcome import Accepted
from stackcheck_tools.analysis.program import OK, Program
from stackcheck_tools.finding import Without
from stackcheck_tools.firmware.devices import Device
from stackcheck_tools.spec.lines import Lines


def assumed(certificate: str) -> str:
    """The assumption file under which a certificate was accepted."""
    lines = certificate.splitlines()
    begin = next(n for n, line in enumerate(lines) if line.startswith("assume "))
    return "".join(f"{it}\n" for it in lines[begin + 1:begin + 1 + int(lines[begin].split()[1])])


def with_never(device: Device, text: str, word: int) -> str:
    """An assumption file with a `never` line more, in its place."""
    return Lines.read(device, text).add(word, "never").text()


def bound_without(outcome: Accepted, word: int, folder: str) -> Optional[int]:
    """The bound that `check` accepts where the vector of a word is never entered; None where there is none."""
    paths = [os.path.join(folder, name) for name in ("never.assume", "never.cert")]
    with open(paths[0], "w", encoding="ascii", newline="\n") as file:
        file.write(with_never(outcome.firmware.device, assumed(outcome.certificate), word))
    program = Program(outcome.firmware.image, outcome.firmware.device.name, paths[0])
    status, text = program.call("analyse")
    if status != OK:
        return None
    with open(paths[1], "w", encoding="ascii", newline="\n") as file:
        file.write(text)
    status, text = program.call("check", paths[1])
    return int(text.split()[2]) if status == OK and text.startswith("accepted bound ") else None


def costs(outcome: Accepted, vectors: List[int], folder: str) -> Tuple[Without, ...]:
    """The bound without each of these vectors, the dearest first."""
    firmware = outcome.firmware
    found = [Without(firmware.handler(it), bound_without(outcome, firmware.device.vector_word(it), folder)) for it in vectors]
    return tuple(sorted(found, key=lambda it: (outcome.bound if it.without is None else it.without, it.name)))
