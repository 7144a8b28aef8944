"""The tool `stackcheck`: its words, what it prints and writes, and its status."""

from __future__ import annotations

import sys
import tempfile
from argparse import Namespace
from contextlib import ExitStack
from typing import List, NoReturn

from stackcheck_tools import habits, home, options, progress
from stackcheck_tools.analysis import cures
from stackcheck_tools.analysis.outcome import judge
from stackcheck_tools.firmware import nearby
from stackcheck_tools.options import TOOL
from stackcheck_tools.report import collect, outputs, sarif


def misused(message: str) -> NoReturn:
    habits.misused(TOOL, message, options.USAGE)


def read_words(given: List[str]) -> Namespace:
    """The words of a call, and the outputs that they ask for."""
    if fault := options.unknown(given):
        misused(fault)
    words = options.parser(misused).parse_args(given)
    if words.firmware is None:
        misused(nearby.told())
    if words.grow is not None and not words.diff:
        misused("--grow: limits what grew since the file of --diff, so give that too")
    if fault := outputs.fault(words):
        misused(fault)
    return words


def answer(words: Namespace, given: List[str]) -> int:
    """Analyses the firmware, prints and writes what is found, and returns the status."""
    with tempfile.TemporaryDirectory() as folder:
        with ExitStack() as stack:
            if not words.quiet:
                stack.enter_context(progress.Shown(TOOL))
            outcome = judge(words, folder)
            result = collect.result(outcome, words, (TOOL, *given), folder)
        outputs.write(outcome, result, words)
    return result.status()


def main() -> int:
    given = sys.argv[1:]
    if given == ["--cures"]:
        print("\n".join(cures.table()))
        return habits.DONE
    if habits.asked(TOOL, options.text(), given):
        return habits.DONE
    words = read_words(given)
    try:
        outputs.clear(words)
        return answer(words, given)
    except BrokenPipeError:
        raise
    except habits.FAULTS as fault:
        told = habits.tell(TOOL, fault, words.spec)
        if words.sarif:
            outputs.put_or_print(words.sarif, sarif.text_of_fault(told, (TOOL, *given), home.version(), habits.MISUSE))
        return habits.MISUSE
