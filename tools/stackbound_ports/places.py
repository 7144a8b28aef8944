"""Where things lie: the checkout, its proved program, the kit, and what is made of them."""

from __future__ import annotations

import hashlib
import os
import shutil

TOP = os.path.dirname(os.path.dirname(os.path.dirname(os.path.realpath(__file__))))
CRATE = os.path.join(TOP, "crates", "stack_cli")
PROGRAM = os.path.join(CRATE, "out", "stack_cli")
RUNTIME = os.path.join(TOP, "runtime")
MODULE = os.path.join(TOP, ".stackbound.module.bc")  # what the proved program was compiled from
MADE = os.path.join(TOP, ".stackbound.ports")  # the ports of the last call of tools/ports


class NotMade(Exception):
    """Something can't be made; the reason in words."""


def text(*path: str) -> str:
    with open(os.path.join(TOP, *path), encoding="utf8") as file:
        return file.read()


def sum_of(path: str) -> str:
    """The SHA-256 of a file."""
    with open(path, "rb") as file:
        return hashlib.sha256(file.read()).hexdigest()


def kit() -> str:
    """The folder of Rattle's kit, whose `rt` is on the path."""
    found = shutil.which("rt")
    if found is None:
        raise NotMade("there is no rt on the path: it comes with the kit that README names")
    return os.path.dirname(os.path.dirname(os.path.realpath(found)))


def clang() -> str:
    return os.path.join(kit(), "toolchain", "bin", "clang")


def tool(name: str, package: str) -> str:
    """A program of a Debian package."""
    path = shutil.which(name)
    if path is None:
        raise NotMade(f"there is no {name}: it is in Debian's package {package}")
    return path
