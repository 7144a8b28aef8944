"""Paths of sources, as an editor finds them, and the text of their lines."""

from __future__ import annotations

import os
from typing import Iterator, Optional

MOST_LETTERS = 100  # of a source line


def ends(path: str) -> Iterator[str]:
    """Yields the ends of a path, the longest first."""
    parts = path.strip(os.sep).split(os.sep)
    yield from (os.path.join(*parts[at:]) for at in range(len(parts)))


def found(folder: str, name: str) -> str:
    """Where the source file of a name lies that a compiler was given in a folder: below the folder of the call, else its longest end that
    is there (the build ran in a container, or on another machine), else the name as it stands."""
    whole = os.path.normpath(os.path.join(folder, name))
    below = os.path.relpath(whole)
    if os.path.isabs(whole) and not below.startswith(os.pardir):
        return below
    return next((it for it in ends(whole) if os.path.isfile(it)), name)


def readable(path: str) -> str:
    """A path as an editor finds it: relative to the folder in which the tool runs, if it lies below."""
    path = os.path.normpath(path)
    below = os.path.relpath(path) if os.path.isabs(path) else path
    return path if below.startswith("..") else below


def line_of(path: str, number: int) -> Optional[str]:
    """The text of a source line without its indentation, cut if it is long; None if the file is not there or has no such line."""
    try:
        with open(path, encoding="utf8", errors="replace") as file:
            text = next((it for at, it in enumerate(file, start=1) if at == number), "").strip()
    except OSError:
        return None
    return text if 0 < len(text) <= MOST_LETTERS else f"{text[:MOST_LETTERS - 3]} .." if text else None
