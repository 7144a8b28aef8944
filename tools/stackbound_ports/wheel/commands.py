"""The commands that the wheel installs: the program, and the tools over it."""

from __future__ import annotations

import os
import runpy
import shutil
import subprocess
import sys
import sysconfig
from typing import List

LIB = os.path.join(os.path.dirname(os.path.realpath(__file__)), "lib")
NO_PROGRAM = 70  # the launcher's status if there is no program
NAMES = ("stackbound.exe", "stackbound")


def native() -> str:
    """The program of this wheel for its own system; nothing in the wheel for all systems."""
    return next((path for path in (os.path.join(LIB, name) for name in NAMES) if os.path.exists(path)), "")


def program() -> int:
    """Runs the program, natively or in Node.js, with the words of this command."""
    words: List[str] = [native()]
    if not words[0]:
        node = shutil.which("node")
        if node is None:
            print("stackbound: this wheel runs the program in Node.js 20 or later, and there is no node on the path", file=sys.stderr)
            return NO_PROGRAM
        words = [node, os.path.join(LIB, "stackbound.mjs")]
    words += sys.argv[1:]
    if os.name == "posix":
        os.execv(words[0], words)
    return subprocess.run(words).returncode


def of_tool(name: str) -> None:
    """Runs a tool with the program of this wheel: natively, or by the command `stackbound` that was installed with it."""
    command = os.path.join(sysconfig.get_path("scripts"), "stackbound" + (".exe" if os.name == "nt" else ""))
    os.environ.setdefault("STACKBOUND", native() or command)
    runpy.run_path(os.path.join(LIB, "tools", name), run_name="__main__")


def stackcheck() -> None:
    of_tool("stackcheck")


def place() -> None:
    of_tool("place")


def assume() -> None:
    of_tool("assume")


def flagged() -> None:
    of_tool("flagged")
