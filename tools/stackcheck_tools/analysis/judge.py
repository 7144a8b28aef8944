"""The program that judges a certificate, so that a report can name it."""

from __future__ import annotations

import hashlib
import os
import shutil
import subprocess

from stackcheck_tools import home
from stackcheck_tools.analysis.program import NoProgram
from stackcheck_tools.finding import Judge

BUILT = os.path.join("crates", "stack_cli", "out", "stack_cli")  # the program of a checkout, by its path beside the launcher


def file_of(called: str) -> str:
    """The file that runs when a path or a name of the search path is called: that of a checkout behind its launcher, links followed."""
    path = os.path.realpath(shutil.which(called) or called)
    built = os.path.join(os.path.dirname(path), BUILT)
    with open(path, "rb") as file:
        is_script = file.read(2) == b"#!"
    return built if is_script and os.path.isfile(built) else path


def judge_of(called: str) -> Judge:
    """The program at a path."""
    try:
        path = file_of(called)
        with open(path, "rb") as file:
            digest = hashlib.sha256(file.read()).hexdigest()
        said = subprocess.run([path, "--version"], stdin=subprocess.DEVNULL, stdout=subprocess.PIPE, stderr=subprocess.DEVNULL)
    except OSError as fault:
        raise NoProgram(f"{called}: {fault.strerror}") from None
    return Judge(path, said.stdout.decode("ascii", "replace").strip().rpartition(" ")[2] or "unknown", digest)


def checked() -> Judge:
    """The program that the tools call. It has to be of their version: then it has each command and each kind of lines that they ask for."""
    found = judge_of(home.program())
    if found.version != home.version():
        raise NoProgram(f"{os.path.normpath(home.program())} is of version {found.version}, and these tools are of {home.version()}")
    return found
