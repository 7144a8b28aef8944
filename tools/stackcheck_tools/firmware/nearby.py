"""The firmware that lies where builds put it, for a call that names none."""

from __future__ import annotations

import glob
import os
import time
from typing import Iterator, List, Tuple

PATTERNS = (".pio/build/*/firmware.elf", "build/*.elf", "build/*/*.elf", "*.elf")
MOST = 8
AVR = b"\x53\x00"  # the machine of an ELF file, 83
UNITS = ((86400, "day"), (3600, "hour"), (60, "minute"), (1, "second"))


def is_avr(path: str) -> bool:
    try:
        with open(path, "rb") as file:
            head = file.read(20)
    except OSError:
        return False
    return head[:4] == b"\x7fELF" and head[18:20] == AVR


def age(seconds: float) -> str:
    """How old a file is, in its greatest unit."""
    unit, name = next(((unit, name) for unit, name in UNITS if seconds >= unit), UNITS[-1])
    count = max(int(seconds // unit), 0)
    return f"{count} {name}{'' if count == 1 else 's'} old"


def found() -> List[Tuple[str, float]]:
    """The files with the seconds since they were written, in the order of the patterns."""
    paths: Iterator[str] = (path for pattern in PATTERNS for path in sorted(glob.glob(pattern)))
    return [(path, time.time() - os.path.getmtime(path)) for path in dict.fromkeys(paths) if is_avr(path)][:MOST]


def told() -> str:
    """What is said to a call without a firmware: a stale file that is checked would be worse than an error, so none is chosen."""
    known = found()
    return "no firmware given" + (f"; found {', '.join(f'{path} ({age(seconds)})' for path, seconds in known)}" if known else "")
