#!/usr/bin/env python3
"""Checks the sources of the tools, scripts and tests by programs that a machine may lack.

usage: tests/checkers.py [--top FOLDER] [NAME..]  all checks, or those of these names, over this checkout or a copy of it
       tests/checkers.py --packages             prints Debian's packages of the programs that aren't there, and checks nothing

types: `mypy --strict` over the package of the tools; style: pyflakes over each script and module of Python; shell: `shellcheck -S warning` over
each script of the shell; units: the unit tests, which need Python alone. A check whose program isn't there is skipped, and says so. The last
line printed is 'N passed, M failed', and ', K skipped' behind it where some were. Status 1 if a check fails. Settings are in pyproject.toml.
"""

import glob
import os
import re
import shutil
import subprocess
import sys

TOP = os.path.dirname(os.path.dirname(os.path.realpath(__file__)))
FOLDERS = (".ci", "bench", "docs", "tests", "tests/*", "tools", "tools/**")
INJECTED = {"docs/examples/stackcheck.py"}  # PlatformIO puts names into it
PYTHON, SHELL = re.compile(rb"#!.*\bpython3?\b"), re.compile(rb"#!(/usr)?/bin/(env )?(ba)?sh\b")
PROGRAMS = {"types": ("mypy",), "style": ("pyflakes3", "pyflakes"), "shell": ("shellcheck",), "units": (sys.executable,)}
PACKAGES = {"types": "mypy", "style": "pyflakes3", "shell": "shellcheck"}


def is_of(path, language):
    """Whether a file is a script of a language by its first line."""
    if not os.path.isfile(path) or os.path.splitext(path)[1]:
        return False
    with open(path, "rb") as file:
        return bool(language.match(file.readline()))


def sources(top, language, ending=None):
    """The files of a language below a folder, by their first lines or this ending; ascending."""
    found = {path for folder in (*FOLDERS, "") for path in glob.glob(os.path.join(top, folder, "*"), recursive=True)}
    return sorted(path for path in found if (ending and path.endswith(ending) or is_of(path, language)) and os.path.relpath(path, top) not in INJECTED)


def command(name, program, top):
    """The command of a check."""
    if name == "types":
        return [program, "--cache-dir", os.devnull]
    if name == "style":
        return [program, *sources(top, PYTHON, ".py")]
    if name == "shell":
        return [program, "-S", "warning", *sources(top, SHELL)]
    return [program, "-B", "-m", "unittest", "discover", "-s", os.path.join("tests", "units")]


def program(name):
    """The program of a check; None where a machine lacks it."""
    return next((path for path in map(shutil.which, PROGRAMS[name]) if path), None)


def run(names, top=TOP):
    """Runs checks over a folder, prints what they find, and counts those that passed, failed and were skipped."""
    passed = failed = skipped = 0
    for name in names:
        path = program(name)
        if path is None:
            print(f"skipped: {name} (no {PROGRAMS[name][0]})")
            skipped += 1
            continue
        said = subprocess.run(command(name, path, top), cwd=top, stdin=subprocess.DEVNULL, stdout=subprocess.PIPE, stderr=subprocess.STDOUT)
        passed, failed = passed + (said.returncode == 0), failed + (said.returncode != 0)
        if said.returncode:
            print(f"FAILED {name}\n" + said.stdout.decode("utf8", "replace"))
    return passed, failed, skipped


def summary(passed, failed, skipped):
    """The last line."""
    return f"{passed} passed, {failed} failed" + (f", {skipped} skipped" if skipped else "")


def main(words):
    if words == ["--packages"]:
        print(" ".join(package for name, package in PACKAGES.items() if program(name) is None))
        return 0
    top = TOP
    if words[:1] == ["--top"] and words[1:]:
        top, words = os.path.abspath(words[1]), words[2:]
    if not set(words) <= set(PROGRAMS):
        print("usage: tests/checkers.py [--top FOLDER] [NAME..] | --packages", file=sys.stderr)
        return 3
    counts = run(words or list(PROGRAMS), top)
    print(summary(*counts))
    return int(counts[1] != 0)


if __name__ == "__main__":
    sys.exit(main(sys.argv[1:]))
