"""The result as it is printed: what asks somebody to act first, then the bound with all that it rests on."""

from __future__ import annotations

from typing import Dict, Iterable, Iterator, List, Tuple

from stackcheck_tools import colour
from stackcheck_tools.analysis import kinds
from stackcheck_tools.analysis.kinds import GIVEN, SAFETY, UNUSED, WHOLE
from stackcheck_tools.finding import ERROR, NOTE, ORDINARY, WARNING, Added, Bound, Finding, Location, Need, Nesting, Result, Since, Step, Without
from stackcheck_tools.report.needs import COLUMNS
from stackcheck_tools.spec.recursion import PLACE

MOST_WORDS = 4  # word addresses that one place prints
GROUPS = "21435"  # of rules, the worst first
COLOURS = {ERROR: colour.RED, WARNING: colour.YELLOW}
RELIES = {SAFETY: "rel{y} on memory safety", WHOLE: "on complete call targets", UNUSED: "on unused units", GIVEN: "stated by the spec",
          PLACE: "limited by a recursion line"}


def where(it: Finding, firmware: str) -> str:
    """Where to look: a source line, else a place in a function, else the firmware."""
    if at := it.at_line():
        return f"{at.file}:{at.line}"
    own = it.at()
    if own.function:
        return own.function if own.offset is None else f"{own.function}+{own.offset}"
    return own.word or own.file or firmware


def head(it: Finding, firmware: str, is_coloured: bool) -> str:
    level = colour.painted(it.level, COLOURS.get(it.level, "") if is_coloured else "")
    return f"{where(it, firmware)}: {level}: {it.message} [{it.rule}]"


def words(locations: Iterable[Location]) -> str:
    """How many instructions, and the first of their words."""
    found = [it.word for it in locations if it.word]
    many = f"{len(found)} instruction{'' if len(found) == 1 else 's'} at "
    return many + " ".join(found[:MOST_WORDS]) + (" .." if len(found) > MOST_WORDS else "")


def cured(it: Finding) -> Iterator[str]:
    """Yields what would help."""
    if it.cure:
        yield f"cure: {it.cure}"
    yield from (f"spec: {line}" for line in it.spec_lines)
    if it.record:
        yield f"to record a review: {it.record}"


def behind(it: Finding) -> Iterator[str]:
    """Yields what stands behind the first line of a finding."""
    if it.source:
        yield f"| {it.source}"
    if it.kind and len(it.locations) > 1:
        yield words(it.locations)
    if it.why:
        yield f"cause: {it.why}"
    yield from it.details
    yield from (f"here: {one.message}" for one in it.related if one.role == "reason")
    yield from cured(it)


def block(it: Finding, firmware: str, is_coloured: bool) -> Iterator[str]:
    """Yields the lines of a finding that asks somebody to act."""
    yield head(it, firmware, is_coloured)
    yield from (f"  {line}" for line in behind(it))


def ordered(findings: Iterable[Finding]) -> List[Finding]:
    return sorted(findings, key=lambda it: GROUPS.index(it.rule[2]))


def bounded(bound: Bound, is_flagged: bool, paint: str) -> Iterator[str]:
    """Yields the bound and its room."""
    covers = ": covers only what comes before the error above" if is_flagged else ""
    yield f"{colour.painted(f'bound {bound.bytes}', paint)}, {bound.holds}{covers}"
    seen = "" if bound.seen is None else f" seen {bound.seen},"
    yield f"{'attained' if bound.attained else 'open'},{seen} room {bound.room}, margin {bound.margin()}"


def line_of(it: Added) -> str:
    """A line of the assumption file, by names if it has any."""
    note = f", {it.note}" if it.note else ""
    return f"{'assumed' if it.assumes else 'added'}: {it.spec or it.assumption}{note}{'' if it.assumes else ' (not an assumption)'}"


def nested(it: Nesting) -> str:
    """What a line `recursion` came to."""
    more = f" ({it.step} for each further activation)" if it.step else ""
    seen = ", as deep as the simulated runs" if it.by_runs else ""
    return f"recursion {it.function} {it.activations}{seen}: calls up to {it.depth} bytes deep{more}"


def premises(result: Result) -> Iterator[str]:
    """Yields what the bound rests on: the lines of the spec, and those of this tool."""
    yield from (line_of(it) for it in result.lines if it.origin == "spec" and it.assumes)
    yield from map(nested, result.recursions)
    own = [it for it in result.lines if it.origin == "tool"]
    if own:
        yield f"lines that stackcheck added: {len(own)} (--plain omits them, --write-spec FILE saves them)"
    yield from map(line_of, own)


def remarks(result: Result) -> Iterator[str]:
    """Yields what is worth knowing and asks nobody to act."""
    for it in result.findings:
        if it.level == NOTE and it.rule[2] == "5":
            yield it.message + (":" if it.spec_lines else "")
            yield from (f"  {line}" for line in it.spec_lines)


def place(it: Finding) -> str:
    """A place of which nobody has to judge, on one line."""
    if it.subject is None:
        return it.message
    at, code = it.at(), f"`{it.source}`, " if it.source else ""
    return f"{f'{at.file}:{at.line}: ' if at.has_line() else ''}{it.subject}: {code}{words(it.locations)}"


def relied(bound: Bound) -> Iterator[str]:
    """Yields on what the places rely that need no review."""
    counts: Dict[str, int] = {it.kind: it.count for it in bound.places}
    for kind, text in RELIES.items():
        if kind in counts:
            yield f"{counts[kind]} {text.format(y='ies' if counts[kind] == 1 else 'y')}"


def counted(result: Result, bound: Bound, places: List[Finding]) -> str:
    """How many places there are, and on what they rely."""
    many = sum(it.count for it in bound.places)
    done = sum(len(it.locations) or 1 for it in places if it.kind == ORDINARY and it.reviewed)
    left = max(sum(it.count for it in bound.places if it.kind in kinds.ORDINARY) - done, 0)
    relies = ", ".join(relied(bound))
    return f"{many} place{'' if many == 1 else 's'}: " + (f"{relies}; " if relies else "") + f"{left or 'none'} to review"


def listed(result: Result) -> Iterator[str]:
    """Yields the places that need no review, and those that were reviewed; those to review stand in front."""
    if result.bound is None:
        return
    places = [it for it in result.findings if it.rule[2] == "3"]
    yield counted(result, result.bound, places)
    left = [it for it in places if it.level == NOTE and not it.reviewed]
    if left:
        yield "no review needed (memory safety, or stated by your spec):"
    for it in left:
        yield place(it)
        yield from (f"  {line}" for line in (*it.details, *cured(it)))
    done = [it for it in places if it.reviewed]
    if done:
        yield f"reviewed by the spec: {len(done)}"
        yield from (f"{place(it)}; {it.reviewed.why}" for it in done if it.reviewed)


def chained(result: Result) -> Iterator[str]:
    if result.chain:
        yield "deepest chain:"
        yield from (f"  {it.adds} {it.text}" for it in result.chain)


def costs(bound: Bound, found: Tuple[Without, ...]) -> Iterator[str]:
    """Yields the bound without each vector."""
    yield "interrupts (the bound without each):"
    if not found:
        yield "  none is entered"
    for it in found:
        if it.without is None:
            yield f"  {it.name}: no bound"
        else:
            yield f"  {it.without} without {it.name}, which costs {bound.bytes - it.without}"


def needed(needs: Tuple[Need, ...]) -> Iterator[str]:
    """Yields the lines of the table: bytes of the own frame, with calls, and with interrupts too, and the name."""
    yield f"needs ({COLUMNS}):"
    width = max(len(str(it.interrupts)) for it in needs)
    yield from (f"  {it.own:{width}} {it.calls:{width}} {it.interrupts:{width}} {it.name}" for it in needs)


def changed(bound: Bound, since: Since) -> Iterator[str]:
    """Yields what changed since another build."""
    yield f"since {since.file}: bound {since.bound} to {bound.bytes} ({bound.bytes - since.bound:+})"
    for it in since.changes:
        how = "new" if it.before is None else "gone" if it.now is None else f"{it.before} to {it.now}"
        yield f"  {it.grown():+} {it.name}: {how}"


def searched(steps: Tuple[Step, ...]) -> Iterator[str]:
    """Yields why each line was added or taken back."""
    yield "search of lines (+ added, - taken back):"
    if not steps:
        yield "  none was added"
    for it in steps:
        yield f"  {it.why}"
        yield from (f"    - {line}" for line in it.dropped)
        yield from (f"    + {line}" for line in it.added)


def device(result: Result) -> str:
    return f"device {result.device}" + (f", linked for {result.linked_for}" if result.linked_for not in (None, result.device) else "")


def findings(result: Result, level: str, is_coloured: bool) -> Iterator[str]:
    for it in ordered(result.of_level(level)):
        yield from block(it, result.firmware, is_coloured)


def answered(result: Result, bound: Bound, is_coloured: bool) -> Iterator[str]:
    """Yields the bound, with all that belongs to it."""
    is_flagged = any(it.rule[2] == "2" for it in result.of_level(ERROR))
    yield from bounded(bound, is_flagged, colour.GREEN if is_coloured and result.status() == 0 else "")
    yield from findings(result, WARNING, is_coloured)
    yield device(result)
    yield from premises(result)
    yield from remarks(result)
    yield from listed(result)
    yield from chained(result)
    if result.interrupts is not None:
        yield from costs(bound, result.interrupts)
    yield from needed(result.needs)
    if result.since:
        yield from changed(bound, result.since)


def lines(result: Result, is_coloured: bool) -> Iterator[str]:
    """Yields the lines of all of it."""
    yield from findings(result, ERROR, is_coloured)
    yield from premises(result) if result.bound is None else answered(result, result.bound, is_coloured)
    if result.search is not None:
        yield from searched(result.search)


def text(result: Result, is_coloured: bool = False) -> str:
    return "".join(f"{it}\n" for it in lines(result, is_coloured))


def quiet(result: Result, is_coloured: bool = False) -> str:
    """Errors and warnings alone; nothing with status 0."""
    if result.status() == 0:
        return ""
    return "".join(f"{it}\n" for level in (ERROR, WARNING) for it in findings(result, level, is_coloured))
