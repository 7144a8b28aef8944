"""The findings of limits: a bound that does not fit, exceeds what was asked for, or has grown."""

from __future__ import annotations

from argparse import Namespace
from typing import Iterator, NamedTuple, Optional, Tuple

from stackcheck_tools.finding import ERROR, Bound, Finding, Link, Location, Related
from stackcheck_tools.spec.settings import LIMIT, MARGIN, Settings


class Limit(NamedTuple):
    """How deep the stack may be: `limit` or `margin`, a number of bytes, and the line of the spec that says it."""

    kind: str
    bytes: int
    line: Optional[int] = None

    def name(self) -> str:
        return f"--{self.kind}" if self.line is None else f"`{self.kind}` of the spec"


def asked(words: Namespace, settings: Settings) -> Optional[Limit]:
    """The limit that a call asks for: a word goes before a line of the spec."""
    for kind, count in ((LIMIT, words.limit), (MARGIN, words.margin)):
        if count is not None:
            return Limit(kind, count)
    for kind, line in ((LIMIT, settings.limit), (MARGIN, settings.margin)):
        if line:
            return Limit(kind, int(line.value), line.number)
    return None


def place(chain: Tuple[Link, ...]) -> Tuple[Location, ...]:
    """The deepest link of the chain that has a source line."""
    return tuple(it.location for it in reversed(chain) if it.location.has_line())[:1]


def over(bound: Bound, limit: Optional[Limit]) -> Optional[Tuple[str, str]]:
    """The rule of the limit that a bound exceeds, and the message."""
    if bound.margin() < 0:
        return "SB401", f"the bound is {bound.bytes} bytes, and the room is {bound.room}"
    if limit and limit.kind == LIMIT and bound.bytes > limit.bytes:
        return "SB402", f"the bound is {bound.bytes} bytes, and {limit.name()} is {limit.bytes}"
    if limit and limit.kind == MARGIN and bound.margin() < limit.bytes:
        return "SB403", f"{bound.margin()} bytes remain free, and {limit.name()} is {limit.bytes}"
    return None


def findings(bound: Bound, words: Namespace, limit: Optional[Limit], spec: Optional[str], before: Optional[int],
             chain: Tuple[Link, ...]) -> Iterator[Finding]:
    """Yields those of one call; `spec` is the path of the spec, `before` the bound of the build with which it is compared."""
    related = tuple(Related("chain", f"{it.adds} bytes: {it.text}", it.location) for it in chain)
    if found := over(bound, limit):
        is_of_spec = limit is not None and limit.line is not None and found[0] != "SB401"
        lines = (Related("spec", "the limit", Location(spec, limit.line)),) if is_of_spec and limit else ()
        yield Finding(found[0], ERROR, found[1], place(chain), related + lines)
    if words.grow is not None and before is not None and bound.bytes - before > words.grow:
        yield Finding("SB404", ERROR, f"the bound has grown from {before} to {bound.bytes} bytes, and --grow permits {words.grow}",
                      place(chain), related)
