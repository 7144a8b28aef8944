"""Compiles the kept module for other processors and systems by the kit's clang, and links it with the surroundings in runtime/."""

from __future__ import annotations

import os
import subprocess
import tempfile
from concurrent.futures import ThreadPoolExecutor
from typing import Dict, Sequence

from stackbound_ports.places import RUNTIME, NotMade, clang, tool

# bytes of stack of a port that names a size; the program needs less than 384 KiB
STACK = 8 << 20
# calls of the program that C for Windows defines otherwise, and the probe of the stack, by mingw's name
RENAMED = {**{name: f"program_{name}" for name in ("main", "open", "read", "write", "close")}, "inline-asm": "___chkstk_ms"}
# the module names the processor that it was made for
TARGETS = {
    "linux": ["--target=aarch64-unknown-linux-gnu", "-ffunction-sections", "-fdata-sections", "-fPIE"],
    "windows": ["--target=x86_64-w64-windows-gnu", "-ffunction-sections", "-fdata-sections"],
    "wasm": ["--target=wasm64-unknown-unknown", "-mbulk-memory", "-msimd128", "-mllvm", "-expand-div-rem-bits=64"],
}
# what links a port, and its package in Debian; the kit links that for WebAssembly
LINKED_BY = {
    "linux": ("aarch64-linux-gnu-gcc", "gcc-aarch64-linux-gnu"),
    "windows": ("x86_64-w64-mingw32-gcc", "gcc-mingw-w64-x86-64"),
}
PROGRAMS = {"linux": "stackbound-aarch64", "windows": "stackbound.exe", "wasm": "stackbound.wasm"}
WARNINGS = ["-Wall", "-Wextra", "-Werror"]


def call(words: Sequence[str]) -> None:
    said = subprocess.run(words, stdin=subprocess.DEVNULL, stdout=subprocess.PIPE, stderr=subprocess.STDOUT)
    if said.returncode != 0:
        raise NotMade(f"{os.path.basename(words[0])} failed: {said.stdout.decode('utf8', 'replace')[-2000:]}")


def compile_module(port: str, module: str, made: str) -> None:
    """The object of the whole program; it is the long part, a minute or two of processor."""
    options = [*TARGETS[port], "-O2", "-Wno-override-module", "-mllvm", "-trap-unreachable"]
    call([clang(), "--no-default-config", *options, "-c", "-x", "ir", module, "-o", made])


def link_linux(program: str, made: str, work: str, more: Sequence[str]) -> None:
    gcc = tool(*LINKED_BY["linux"])
    call([gcc, "-O2", *WARNINGS, "-static", "-s", "-Wl,--gc-sections", "-o", made, program, os.path.join(RUNTIME, "linux.c"), *more])


def link_windows(program: str, made: str, work: str, more: Sequence[str]) -> None:
    renamed = os.path.join(work, "renamed.o")
    names = [word for name, other in RENAMED.items() for word in ("--redefine-sym", f"{name}={other}")]
    call([tool("x86_64-w64-mingw32-objcopy", "binutils-mingw-w64-x86-64"), *names, program, renamed])
    # no time in the header: the same sources give the same bytes
    options = ["-municode", "-s", "-Wl,--gc-sections", f"-Wl,--stack,{STACK}", "-Wl,--no-insert-timestamp"]
    gcc = tool(*LINKED_BY["windows"])
    call([gcc, "-O2", *WARNINGS, *options, "-o", made, renamed, os.path.join(RUNTIME, "windows.c"), *more])


def link_wasm(program: str, made: str, work: str, more: Sequence[str]) -> None:
    surroundings, linker = os.path.join(work, "wasm.o"), os.path.join(work, "wasm-ld")
    options = ["--target=wasm64-unknown-unknown", "-O2", *WARNINGS, "-ffreestanding", "-fno-builtin", "-mbulk-memory"]
    call([clang(), "--no-default-config", *options, "-c", os.path.join(RUNTIME, "wasm.c"), "-o", surroundings])
    # the kit's linker is the one that its name says
    os.symlink(clang(), linker)
    options = ["-mwasm64", "--no-entry", "--export=main", "--export-memory", "-s", "--gc-sections"]
    call([linker, *options, "-z", f"stack-size={STACK}", "--stack-first", "-o", made, program, surroundings, *more])


LINKERS = {"linux": link_linux, "windows": link_windows, "wasm": link_wasm}


def link(port: str, program: str, made: str, more: Sequence[str] = ()) -> None:
    """Links a port of its object; `more` are further files and options."""
    with tempfile.TemporaryDirectory() as work:
        LINKERS[port](program, made, work, more)


def object_in(folder: str, port: str) -> str:
    return os.path.join(folder, f"{port}.o")


def make(module: str, folder: str, ports: Sequence[str]) -> Dict[str, str]:
    """Makes ports in a folder, side by side; returns the faults of those that were not made."""
    faults: Dict[str, str] = {}

    def one(port: str) -> None:
        try:
            if port in LINKED_BY:
                tool(*LINKED_BY[port])
            compile_module(port, module, object_in(folder, port))
            link(port, object_in(folder, port), os.path.join(folder, PROGRAMS[port]))
        except NotMade as fault:
            faults[port] = str(fault)

    with ThreadPoolExecutor(os.cpu_count()) as workers:
        for _ in workers.map(one, ports):
            pass
    return faults
