"""The files that a call writes."""

from __future__ import annotations

import os
import sys
from argparse import Namespace
from typing import Callable, Dict, Iterator, Optional, Tuple

from stackcheck_tools import colour
from stackcheck_tools.analysis.outcome import Accepted, Outcome, Refused
from stackcheck_tools.finding import Result
from stackcheck_tools.options import OUTPUTS
from stackcheck_tools.report import dot, github, gitlab, machine_report, needs, page, sarif, text

# by their options, each a function of the result; None if there is nothing to write without a bound
RENDERERS: Dict[str, Callable[[Result], Optional[str]]] = {
    "json": machine_report.text, "sarif": sarif.text, "gitlab": gitlab.text, "csv": needs.as_csv, "dot": dot.text, "page": page.html}


def schedule(outcome: Accepted) -> Optional[str]:
    """The run that is as deep as the bound: the certificate's schedule, or the files of a simulated run with the command that does it
    again."""
    lines = outcome.certificate.splitlines()
    if "witness attained" in lines:
        begin = lines.index("witness attained") + 1
        return "".join(f"{it}\n" for it in lines[begin:-1])
    return outcome.deepest.text if outcome.deepest else None


def spec_of(outcome: Outcome, result: Result) -> Iterator[str]:
    """The given spec, and behind it the lines that this tool added, with their places."""
    yield from outcome.spec.splitlines()
    if not isinstance(outcome, Refused):
        yield from (f"# {it.line()}" for it in outcome.recursions if it.is_by_runs())
    own = [it for it in result.lines if it.origin == "tool"]
    yield from (f"{it.spec or '# no name: ' + it.assumption}  # {it.note or 'not an assumption'}" for it in own)


def of_analysis(outcome: Outcome, result: Result) -> Dict[str, Optional[str]]:
    """The texts that the analysis itself has, by their options."""
    spec = "".join(f"{line}\n" for line in spec_of(outcome, result))
    if isinstance(outcome, Refused):
        return {"cert": None, "schedule": None, "write_spec": spec}
    return {"cert": outcome.certificate, "schedule": schedule(outcome), "write_spec": spec}


def same(one: str, other: str) -> bool:
    """Whether two paths are those of one file."""
    if os.path.exists(one) and os.path.exists(other):
        return os.path.samefile(one, other)
    return os.path.realpath(one) == os.path.realpath(other)


def paths(words: Namespace) -> Iterator[Tuple[str, str]]:
    """Yields each option that names an output, and its path."""
    for it in OUTPUTS:
        if path := getattr(words, it.key()):
            yield it.name, path


def fault_of(name: str, path: str, words: Namespace) -> Optional[str]:
    """Why a path cannot be that of an output; None if it can."""
    folder = os.path.dirname(path) or "."
    inputs = [("the firmware", words.firmware), ("the spec", words.spec), ("the file of --diff", words.diff)]
    for what, it in inputs:
        if it and same(path, it) and not (name == "--write-spec" and what == "the spec"):
            return f"{name}: this is {what}"
    if not os.path.isdir(folder):
        return f"{name}: no such folder: {folder}"
    if os.path.isdir(path):
        return f"{name}: this is a folder: {path}"
    if not os.access(path if os.path.exists(path) and not os.path.isfile(path) else folder, os.W_OK):
        return f"{name}: nothing can be written into {folder}"
    return None


def fault(words: Namespace) -> Optional[str]:
    """What is wrong with the outputs that are asked for; None if nothing is."""
    seen: Dict[str, str] = {}
    for name, path in paths(words):
        if path == "-":
            if words.github:
                return f"{name} -: --github prints behind it, so give a file"
            if "-" in seen:
                return f"{name} -: {seen['-']} is printed already, and one file alone can be -"
        elif why := fault_of(name, path, words):
            return why
        key = path if path == "-" else os.path.realpath(path)
        if key in seen and (os.path.isfile(path) or not os.path.exists(path)):
            return f"{name}: {seen[key]} has this file already"
        seen[key] = name
    return None


def clear(words: Namespace) -> None:
    """Removes the outputs of an earlier call, so that none is taken for one of this call; a spec is kept until there is a new one."""
    for name, path in paths(words):
        if path != "-" and name != "--write-spec" and os.path.isfile(path):
            os.remove(path)


def put(path: str, content: str) -> None:
    """Writes a file in one step: a reader finds the old one or the new one."""
    if os.path.exists(path) and not os.path.isfile(path):  # a device, a pipe
        with open(path, "w", encoding="utf8", newline="\n") as file:
            file.write(content)
        return
    target = os.path.realpath(path)
    try:
        with open(target + ".new", "w", encoding="utf8", newline="\n") as file:
            file.write(content)
        os.replace(target + ".new", target)
    finally:
        if os.path.exists(target + ".new"):
            os.remove(target + ".new")


def put_or_print(path: str, content: str) -> None:
    if path == "-":
        sys.stdout.write(content)
    else:
        put(path, content)


def write(outcome: Outcome, result: Result, words: Namespace) -> None:
    """Prints the text, or the one file that is `-` in its place, and what a workflow of GitHub shows; then writes all files."""
    texts: Dict[str, Optional[str]] = {name: render(result) for name, render in RENDERERS.items() if getattr(words, name)}
    texts.update({name: it for name, it in of_analysis(outcome, result).items() if getattr(words, name)})
    printed = next((it or "" for name, it in texts.items() if getattr(words, name) == "-"), None)
    if printed is None:
        printed = (text.quiet if words.quiet else text.text)(result, colour.is_wanted(words.color))
    sys.stdout.write(printed + (github.text(result) if words.github else ""))
    sys.stdout.flush()
    for name, it in texts.items():
        path = getattr(words, name)
        if path != "-" and it is not None:
            put(path, it)
