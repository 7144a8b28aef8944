"""The words of tools/ports."""

from __future__ import annotations

import os
import shutil
import subprocess
import sys
from typing import Sequence

from stackbound_ports import compiling, module, packing
from stackbound_ports.places import MADE, MODULE, PROGRAM, TOP, NotMade, sum_of, text

DONE, REFUSED, MISUSE = 0, 1, 3
OF = "of"  # a file beside the ports: the sums of what they were made of


def origin() -> str:
    """What the ports of .stackbound.ports are made of: program, module, surroundings."""
    parts = [PROGRAM, MODULE, *(os.path.join(TOP, "runtime", name) for name in sorted(os.listdir(os.path.join(TOP, "runtime"))))]
    return "".join(f"{sum_of(it)}  {os.path.relpath(it, TOP)}\n" for it in parts)


def is_made(port: str) -> bool:
    """Whether a port stands in .stackbound.ports that is of the program and of the surroundings that stand here."""
    try:
        with open(os.path.join(MADE, OF), encoding="utf8") as file:
            return file.read() == origin() and os.path.exists(os.path.join(MADE, compiling.PROGRAMS[port]))
    except OSError:
        return False


def make_programs(ports: Sequence[str], may_remake: bool) -> None:
    """Makes the ports that aren't made yet."""
    if not os.path.exists(PROGRAM):
        raise NotMade("there is no proved program: .ci/run makes it")
    if not module.is_current():
        if not may_remake:
            raise NotMade("the module of the proved program was not kept")
        print("ports: building the program again, for its module: some minutes", file=sys.stderr)
        module.remake()
    lacking = [it for it in ports if not is_made(it)]
    if not lacking:
        return
    if not any(is_made(it) for it in compiling.PROGRAMS):
        shutil.rmtree(MADE, ignore_errors=True)
    os.makedirs(MADE, exist_ok=True)
    packing.put_node_program(MADE)
    faults = compiling.make(MODULE, MADE, lacking)
    with open(os.path.join(MADE, OF), "w", encoding="utf8") as file:
        file.write(origin())
    if faults:
        raise NotMade("\n".join(f"{port}: {fault}" for port, fault in sorted(faults.items())))


def has_passed() -> bool:
    """Whether the gate has passed on what is in this checkout; tools/install knows."""
    return subprocess.run([sys.executable, os.path.join(TOP, "tools", "install"), "--has-passed"]).returncode == 0


def answer(words: Sequence[str]) -> int:
    first = words[0]
    if first == "--watch" and len(words) == 1:
        module.watch()
    elif first == "--programs" and all(it in compiling.PROGRAMS for it in words[1:]):
        make_programs(words[1:] or list(compiling.PROGRAMS), may_remake=False)
    elif first == "--unproved" and len(words) == 3:
        os.makedirs(words[2], exist_ok=True)
        packing.put_node_program(words[2])
        faults = compiling.make(words[1], words[2], list(compiling.PROGRAMS))
        if faults:
            raise NotMade("\n".join(faults.values()))
    elif not first.startswith("-") and first and len(words) == 1:
        if not has_passed():
            raise NotMade("the gate (.ci/run) has not passed on what is in this checkout, so nothing was made")
        make_programs(list(compiling.PROGRAMS), may_remake=True)
        packing.make_all(first)
    else:
        return MISUSE
    return DONE


def main(words: Sequence[str], document: str) -> int:
    if words in (["-h"], ["--help"], ["--version"]):
        print(f"ports (stackbound) {text('VERSION').strip()}" if words == ["--version"] else document.strip())
        return DONE
    try:
        status = answer(words) if words else MISUSE
    except NotMade as fault:
        print(f"ports: {fault}", file=sys.stderr)
        return REFUSED
    if status == MISUSE:
        print(document.strip(), file=sys.stderr)
    return status
