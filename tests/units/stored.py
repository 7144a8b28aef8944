"""What the unit tests share: the tools on the path, and the stored files of tests/firmware."""

import os
import sys

TOP = os.path.dirname(os.path.dirname(os.path.dirname(os.path.realpath(__file__))))


def use_tools() -> None:
    """Puts the tools on the path."""
    tools = os.path.join(TOP, "tools")
    if tools not in sys.path:
        sys.path.insert(0, tools)


use_tools()


def path(name: str) -> str:
    """The path of a stored file."""
    return os.path.join(TOP, "tests", "firmware", name)
