"""Packages of the ports: an archive for Linux on aarch64, one for Windows, three wheels, and the page. The same commit and programs make
the same bytes."""

from __future__ import annotations

import base64
import gzip
import hashlib
import importlib.machinery
import importlib.util
import io
import os
import subprocess
import sys
import tarfile
import tempfile
import time as clock
import zipfile
from typing import Dict, List, NamedTuple

from stackbound_ports.compiling import PROGRAMS
from stackbound_ports.page import page
from stackbound_ports.places import MADE, MODULE, PROGRAM, TOP, NotMade, sum_of, text

TOOLS = {"stackcheck": "stackcheck", "stackbound-place": "place", "stackbound-assume": "assume", "stackbound-flagged": "flagged"}
NODE_PROGRAM = "stackbound.mjs"
OLDEST_ZIP = 315532800  # 1980, before which an archive of this kind has no time
ABOUT = """stackbound {version} for {system}

commit   {commit}
kit      {kit}
module   SHA-256 {module}
program  SHA-256 {program}
native   SHA-256 {native}

The gate of this commit (.ci/run) passed: each function of the program is proved with this kit to meet its contract. `native` is the program
that it made for Linux on x86-64; `module` is what that was compiled from, and `program` was compiled from the same module. What compiled
and linked it for this system is trusted: docs/PROOF.md says what is proved, what is tested, and what is trusted.

{use}
"""
USES = {
    "linux": "bin/stackbound runs where this folder lies, on Linux for aarch64, and needs nothing else. The tools beside it need\n"
             "Python 3.9 or later.",
    "windows": "bin\\stackbound.exe runs where this folder lies, on Windows for x86-64, and needs nothing else. The tools beside it\n"
               "(bin\\stackcheck.cmd and the others) need Python 3.9 or later, with its launcher `py`.",
}
SYSTEMS = {"linux": "Linux on aarch64", "windows": "Windows on x86-64"}
CALL_IN_LIB = '#!/bin/sh\nexec "$(dirname -- "$(readlink -f -- "$0")")/../lib/stackbound/{target}" "$@"\n'
CALL_OF_TOOL = """@echo off
setlocal
if not defined STACKBOUND set "STACKBOUND=%~dp0stackbound.exe"
py -3 "%~dp0..\\lib\\stackbound\\tools\\{tool}" %*
exit /b %ERRORLEVEL%
"""
TAGS = {"linux": "manylinux_2_17_aarch64", "windows": "win_amd64", "any": "any"}
METADATA = """Metadata-Version: 2.1
Name: stackbound
Version: {version}
Summary: Worst-case stack usage of AVR firmware, interrupts included, backed by a certificate
Requires-Python: >=3.9

"""
CALLS = {"stackbound": "program", **TOOLS}
COMMANDS = "[console_scripts]\n" + "".join(f"{name} = stackbound.commands:{function}\n" for name, function in CALLS.items())


class Entry(NamedTuple):
    """A file of an archive."""

    content: bytes
    is_program: bool = False


Entries = Dict[str, Entry]
# the functions of tools/package, which has no name that `import` takes
_loader = importlib.machinery.SourceFileLoader("stackbound_package", os.path.join(TOP, "tools", "package"))
_spec = importlib.util.spec_from_loader("stackbound_package", _loader)
assert _spec is not None
package = importlib.util.module_from_spec(_spec)
_loader.exec_module(package)


def read(path: str) -> bytes:
    with open(path, "rb") as file:
        return file.read()


def put_node_program(folder: str) -> None:
    """The program for Node.js, beside its module."""
    with open(os.path.join(folder, NODE_PROGRAM), "w", encoding="utf8") as file:
        file.write(text("runtime", "host.js") + text("runtime", "node.js"))


def commit_time() -> int:
    return int(package.git("log", "-1", "--format=%ct") or 0)


def tar_gz(entries: Entries, time: int) -> bytes:
    whole = io.BytesIO()
    with tarfile.open(fileobj=whole, mode="w", format=tarfile.GNU_FORMAT) as archive:
        for name, entry in sorted(entries.items()):
            it = tarfile.TarInfo(name)
            it.size, it.mtime, it.mode = len(entry.content), time, 0o755 if entry.is_program else 0o644
            archive.addfile(it, io.BytesIO(entry.content))
    return gzip.compress(whole.getvalue(), mtime=0)


def zipped(entries: Entries, time: int) -> bytes:
    whole = io.BytesIO()
    moment = clock.gmtime(max(time, OLDEST_ZIP))[:6]
    with zipfile.ZipFile(whole, "w", zipfile.ZIP_DEFLATED) as archive:
        for name, entry in sorted(entries.items()):
            it = zipfile.ZipInfo(name, moment)
            it.compress_type, it.create_system = zipfile.ZIP_DEFLATED, 3
            it.external_attr = (0o100755 if entry.is_program else 0o100644) << 16
            archive.writestr(it, entry.content)
    return whole.getvalue()


def installed(folder: str) -> Entries:
    """What tools/install puts into a folder, with links as the files that they lead to, and the documents."""
    status = subprocess.run([sys.executable, os.path.join(TOP, "tools", "install"), folder]).returncode
    if status != 0:
        raise NotMade("tools/install refused")
    found = {it: path for part in sorted(os.listdir(folder)) for it, path in package.files(os.path.join(folder, part))}
    found.update({it: path for part in package.DOCUMENTS for it, path in package.files(os.path.join(TOP, part))})
    entries: Entries = {}
    for it, path in found.items():
        content = read(path)
        if it.endswith(".md"):
            content = package.without_dead_links(content.decode("utf8"), it, found).encode()
        entries[it] = Entry(content, os.access(path, os.X_OK))
    return entries


def about(port: str, version: str) -> Entry:
    kit, program = text(".stackbound.passed").splitlines()[1], sum_of(os.path.join(MADE, PROGRAMS[port]))
    sums = {"module": sum_of(MODULE), "native": sum_of(PROGRAM), "program": program}
    return Entry(ABOUT.format(version=version, system=SYSTEMS[port], commit=package.commit(), kit=kit, use=USES[port], **sums).encode())


def linux_entries(entries: Entries, version: str) -> Entries:
    """The layout of the package for this machine, with the program of the other one, which the commands in bin find by their own place."""
    targets = {"stackbound": "stackbound", **{name: f"tools/{tool}" for name, tool in TOOLS.items()}}
    calls = {f"bin/{name}": Entry(CALL_IN_LIB.format(target=target).encode(), True) for name, target in targets.items()}
    program = Entry(read(os.path.join(MADE, PROGRAMS["linux"])), True)
    found = {**entries, **calls, "lib/stackbound/stackbound": program, "ABOUT": about("linux", version)}
    return {f"stackbound-{version}-aarch64-linux/{it}": entry for it, entry in found.items()}


def windows_entries(entries: Entries, version: str) -> Entries:
    """The same for Windows: commands of `cmd` call the tools, and no manual pages."""
    kept = {it: entry for it, entry in entries.items() if not it.startswith(("bin/", "share/man/")) and it != "lib/stackbound/stackbound"}
    calls = {f"bin/{name}.cmd": Entry(CALL_OF_TOOL.format(tool=tool).replace("\n", "\r\n").encode()) for name, tool in TOOLS.items()}
    program = {"bin/stackbound.exe": Entry(read(os.path.join(MADE, PROGRAMS["windows"])), True)}
    found = {**kept, **calls, **program, "ABOUT.txt": about("windows", version)}
    return {f"stackbound-{version}-windows-x86_64/{it}": entry for it, entry in found.items()}


def programs_of(port: str) -> Entries:
    """The program as a wheel has it in its lib."""
    if port == "any":
        return {name: Entry(read(os.path.join(MADE, name))) for name in (PROGRAMS["wasm"], NODE_PROGRAM)}
    return {"stackbound" + (".exe" if port == "windows" else ""): Entry(read(os.path.join(MADE, PROGRAMS[port])), True)}


def record(entries: Entries) -> str:
    """The list of a wheel's files with their sums."""
    def line(name: str, content: bytes) -> str:
        return f"{name},sha256={base64.urlsafe_b64encode(hashlib.sha256(content).digest()).decode().rstrip('=')},{len(content)}\n"
    return "".join(line(name, entry.content) for name, entry in sorted(entries.items()))


def wheel_entries(entries: Entries, port: str, version: str) -> Entries:
    """A wheel: the commands, and below them lib as it is installed, with the program for this port."""
    lib = "lib/stackbound/"
    found = {f"stackbound/lib/{it[len(lib):]}": entry for it, entry in entries.items() if it.startswith(lib) and it != lib + "stackbound"}
    found.update({f"stackbound/lib/{it}": entry for it, entry in programs_of(port).items()})
    own = os.path.join(TOP, "tools", "stackbound_ports", "wheel")
    found.update({f"stackbound/{it}": Entry(read(os.path.join(own, it))) for it in ("__init__.py", "commands.py")})
    info = f"stackbound-{version}.dist-info/"
    is_pure = "true" if port == "any" else "false"
    tag = f"Wheel-Version: 1.0\nGenerator: stackbound\nRoot-Is-Purelib: {is_pure}\nTag: py3-none-{TAGS[port]}\n"
    found[info + "WHEEL"] = Entry(tag.encode())
    found[info + "METADATA"] = Entry((METADATA.format(version=version) + text("README.md")).encode())
    found[info + "entry_points.txt"] = Entry(COMMANDS.encode())
    found[info + "RECORD"] = Entry((record(found) + f"{info}RECORD,,\n").encode())
    return found


def packages() -> Dict[str, bytes]:
    """Each package by its name."""
    version, time = text("VERSION").strip(), commit_time()
    with tempfile.TemporaryDirectory() as stage:
        entries = installed(stage)
    made = {
        f"stackbound-{version}-aarch64-linux.tar.gz": tar_gz(linux_entries(entries, version), time),
        f"stackbound-{version}-windows-x86_64.zip": zipped(windows_entries(entries, version), time),
        "stackbound.html": page(os.path.join(MADE, PROGRAMS["wasm"]), MODULE).encode(),
    }
    for port, tag in TAGS.items():
        made[f"stackbound-{version}-py3-none-{tag}.whl"] = zipped(wheel_entries(entries, port, version), time)
    return made


def make_all(folder: str) -> None:
    """Writes all packages and their sums into a folder, and prints the sums."""
    made = packages()
    lines: List[str] = [f"{hashlib.sha256(content).hexdigest()}  {name}\n" for name, content in sorted(made.items())]
    made["SHA256SUMS"] = "".join(lines).encode()
    os.makedirs(folder, exist_ok=True)
    for name, content in made.items():
        path = os.path.join(folder, name)
        with open(path + ".new", "wb") as file:
            file.write(content)
        os.replace(path + ".new", path)
    print("".join(lines), end="")
