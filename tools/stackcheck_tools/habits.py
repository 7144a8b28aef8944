"""What all tools do alike: their words, `--help` and `--version`, and how they end."""

from __future__ import annotations

import argparse
import io
import os
import sys
import traceback
from argparse import Namespace
from typing import Callable, NoReturn, Optional, Sequence, Union

from stackcheck_tools.finding import Fault, Location
from stackcheck_tools.home import version

DONE, MISUSE, INTERRUPTED, CLOSED_PIPE = 0, 3, 130, 141
UNREADABLE = "SB001"


def in_words(fault: BaseException) -> str:
    """A fault of a tool in words, without the system's numbers."""
    if isinstance(fault, FileNotFoundError):
        return f"no such file: {fault.filename}"
    if isinstance(fault, UnicodeDecodeError):
        return f"a text is not UTF-8: {fault.reason} at byte {fault.start}"
    if isinstance(fault, OSError) and fault.strerror:
        return f"{fault.filename}: {fault.strerror}" if fault.filename is not None else fault.strerror
    return str(fault)


def as_fault(fault: BaseException) -> Fault:
    """A fault as a value: what the system says of a file is one too."""
    return fault if isinstance(fault, Fault) else Fault(in_words(fault), UNREADABLE)


FAULTS = (Fault, OSError, UnicodeDecodeError)  # what is told in words, with status 3


def in_spec(fault: Fault, path: Optional[str]) -> Fault:
    """The same fault at its line of the spec, if it names one."""
    if fault.location.line is None or not path:
        return fault
    return Fault(str(fault), fault.rule, Location(path, fault.location.line))


def line_of(name: str, fault: Fault) -> str:
    """`FILE:LINE: error: TEXT [RULE]` of a fault that has a place, `TOOL: error: ..` of others."""
    at = fault.location
    return f"{f'{at.file}:{at.line}' if at.has_line() else name}: error: {fault} [{fault.rule}]"


def tell(name: str, fault: BaseException, spec: Optional[str] = None) -> Fault:
    """Prints what is wrong, and returns it."""
    found = in_spec(as_fault(fault), spec)
    print(line_of(name, found), file=sys.stderr)
    return found


def misused(name: str, message: str, usage: str) -> NoReturn:
    """Ends a tool whose words are wrong: what is wrong, the usage, where the help is."""
    print(f"{name}: error: {message}\n{usage}\nSee {name} --help", file=sys.stderr)
    sys.exit(MISUSE)


def usage_of(document: str) -> str:
    """The first line `usage: ..` of a tool's text, which names the tool as it is installed."""
    return next((line for line in document.splitlines() if line.startswith("usage: ")), "")


def asked(name: str, document: str, words: Sequence[str]) -> bool:
    """Whether the words ask for the help or the version of a tool, which is printed then."""
    if any(it in ("-h", "--help") for it in words):
        print(document.strip())
        return True
    if "--version" in words:
        print(f"{name} (stackbound) {version()}")
        return True
    return False


class Words(argparse.ArgumentParser):
    """The words of a tool: others are answered by what is wrong and how it is called, with status 3."""

    def __init__(self, name: str, document: str) -> None:
        super().__init__(prog=name, add_help=False, allow_abbrev=False)
        self.document = document

    def parse_args(  # type: ignore[override]
            self, args: Optional[Sequence[str]] = None, namespace: Optional[Namespace] = None) -> Namespace:
        if asked(self.prog, self.document, sys.argv[1:] if args is None else args):
            sys.exit(DONE)
        return super().parse_args(args, namespace)

    def error(self, message: str) -> NoReturn:
        misused(self.prog, message, usage_of(self.document))


def nowhere() -> None:
    """Lets what is still printed go nowhere, so that Python's own last write can't fail."""
    os.dup2(os.open(os.devnull, os.O_WRONLY), sys.stdout.fileno())


def of_itself(fault: BaseException) -> str:
    """A fault of the tool itself, with its place."""
    last = traceback.extract_tb(fault.__traceback__)[-1]
    return f"a fault of this tool itself, and no answer: {type(fault).__name__}: {fault} ({os.path.basename(last.filename)}:{last.lineno})"


def run(main: Callable[[], Optional[int]]) -> NoReturn:
    """Calls a tool's `main` and ends with its status; a closed pipe, an interrupt from the keyboard and a fault end without a trace of the
    calls."""
    if sys.platform == "win32" and isinstance(sys.stdout, io.TextIOWrapper):  # files of the program have line feeds alone
        sys.stdout.reconfigure(encoding="utf8", newline="\n")
    for stream in (sys.stdout, sys.stderr):
        if isinstance(stream, io.TextIOWrapper):
            stream.reconfigure(errors="backslashreplace")  # an encoding that lacks a letter ends nothing
    try:
        status: Union[int, str, None]
        try:
            status = main()
        except SystemExit as end:
            status = end.code
        sys.stdout.flush()
    except BrokenPipeError:
        nowhere()
        status = CLOSED_PIPE
    except KeyboardInterrupt:
        nowhere()
        status = INTERRUPTED
    except OSError as fault:
        nowhere()
        print(f"{os.path.basename(sys.argv[0])}: {in_words(fault)}", file=sys.stderr)
        status = MISUSE
    except Exception as fault:  # any other status would say something of the firmware
        print(f"{os.path.basename(sys.argv[0])}: {of_itself(fault)}", file=sys.stderr)
        status = MISUSE
    sys.exit(status)
