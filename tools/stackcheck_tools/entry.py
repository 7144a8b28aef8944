"""The commands of a wheel, which has no scripts of its own."""

from __future__ import annotations

import os
import sys
from typing import NoReturn

from stackcheck_tools import habits, home, tool_assume, tool_flagged, tool_place, tool_stackcheck


def stackbound() -> NoReturn:
    """The program, in this process's place."""
    os.execv(home.program(), ["stackbound", *sys.argv[1:]])


def stackcheck() -> NoReturn:
    habits.run(tool_stackcheck.main)


def assume() -> NoReturn:
    habits.run(tool_assume.main)


def flagged() -> NoReturn:
    habits.run(tool_flagged.main)


def place() -> NoReturn:
    habits.run(tool_place.main)
