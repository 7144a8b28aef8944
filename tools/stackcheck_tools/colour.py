"""Colours of what is printed on a terminal."""

from __future__ import annotations

import os
import sys

RED, YELLOW, GREEN, PLAIN = "\033[1;31m", "\033[33m", "\033[32m", "\033[0m"


def is_wanted(when: str) -> bool:
    """Whether the output gets colours: if it is asked for, else on a terminal that has them."""
    if when != "auto":
        return when == "always"
    return sys.stdout.isatty() and "NO_COLOR" not in os.environ and os.environ.get("TERM") != "dumb"


def painted(text: str, colour: str) -> str:
    return f"{colour}{text}{PLAIN}" if colour else text
