"""Lines that a workflow of GitHub shows at the source lines which they name."""

from __future__ import annotations

from typing import Iterator

from stackcheck_tools.finding import Finding, Result
from stackcheck_tools.rules import BY_ID


def escaped(text: str) -> str:
    return text.replace("%", "%25").replace("\r", "%0D").replace("\n", "%0A")


def value(text: str) -> str:
    """The text of a property, which ends at a colon or a comma."""
    return escaped(text).replace(":", "%3A").replace(",", "%2C")


def line(it: Finding) -> str:
    """`::error file=..,line=..,title=..::..`, at the first place that has a source line."""
    at = it.at_line()
    where = f"file={value(at.file or '')},line={at.line}," if at else ""
    told = (("cause", it.why), ("cure", it.cure), ("to record a review", it.record))
    more = [f"{what}: {text}" for what, text in told if text]
    return f"::{it.level} {where}title={value(f'{it.rule} {BY_ID[it.rule].name}')}::{escaped('; '.join([it.message, *more]))}"


def told(it: Result) -> Iterator[str]:
    """Yields what asks somebody to act, each at its place, and the bound."""
    yield from (line(one) for one in it.findings if one.asks())
    if it.bound:
        known = "attained" if it.bound.attained else "open"
        yield f"::notice title=stack::{escaped(f'bound {it.bound.bytes}, {it.bound.holds}; {known}, {it.bound.margin()} bytes left')}"


def text(it: Result) -> str:
    return "".join(f"{one}\n" for one in told(it))
