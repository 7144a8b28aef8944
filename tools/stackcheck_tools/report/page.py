"""The result as one page of HTML that stands alone."""

from __future__ import annotations

import os
import shlex
from html import escape
from typing import Dict, Iterator, List, Tuple

from stackcheck_tools.finding import NOTE, ORDINARY, Bound, Finding, Result
from stackcheck_tools.report import flame, text as texts
from stackcheck_tools.report.flame import bytes_of
from stackcheck_tools.report.needs import COLUMNS
from stackcheck_tools.report.page_style import STYLE

STATIC, LEFT, BOTH, STACK = "var(--static)", "var(--left)", "var(--red)", flame.CALLS[0]
OWN, WITH_CALLS, WITH_INTERRUPTS = "#3f6fb5", "#6a92d0", "#cf7a2a"
KEYS = (("own", OWN), ("calls", WITH_CALLS), ("interrupts", WITH_INTERRUPTS))
GREEN, AMBER, GREY = "var(--green)", "var(--amber)", "var(--edge)"
MOST_LETTERS = 120  # of a source line
TERMS = ("a <em>place</em> is an instruction at which the analysis cannot rule out a flagged step; <em>attained</em>: a run as deep as the "
         "bound is known (docs/BUILDS.md)")


def with_code(text: str) -> str:
    """Escaped text, in which what stands between back quotes is code."""
    return "".join(f"<code>{escape(part)}</code>" if n % 2 else escape(part) for n, part in enumerate(text.split("`")))


def bar(parts: List[Tuple[int, str, str]], ends: Tuple[str, ...] = ()) -> Iterator[str]:
    """A bar to scale with its key, and what stands at its ends: parts are (bytes, colour, text)."""
    whole = sum(count for count, _, _ in parts) or 1
    told = ", ".join(f"{text}: {bytes_of(count)}" for count, _, text in parts if count)
    yield f'<div class="bar" role="img" aria-label="{escape(told)}">'
    yield from (f'<div style="width:{100 * count / whole:.3f}%;background:{colour}" title="{escape(text)}: {bytes_of(count)}"></div>'
                for count, colour, text in parts if count)
    yield "</div>"
    if ends:
        yield f'<div class="ends">{"".join(f"<span>{escape(it)}</span>" for it in ends)}</div>'
    yield '<ul class="keys">'
    yield from (f'<li><i style="background:{colour}"></i>{escape(text)}: {bytes_of(count)}</li>' for count, colour, text in parts)
    yield "</ul>"


def memory(result: Result, bound: Bound) -> Iterator[str]:
    """SRAM from its first byte to its last: static data, what stays free, the stack."""
    (first, last), static, free = result.memory, bound.sram - bound.room, bound.margin()
    if free >= 0:
        parts = [(static, STATIC, "static data"), (free, LEFT, "free"), (bound.bytes, STACK, "stack, worst case")]
    else:
        parts = [(static + free, STATIC, "static data alone"), (-free, BOTH, "static data and stack"),
                 (bound.room, STACK, "stack alone, worst case")]
    yield f"<h2>SRAM<small>{bytes_of(bound.sram)}, {first:04X} to {last:04X}</small></h2>"
    yield from bar(parts, (f"{first:04X}", f"{last:04X}"))


def chain_colours(result: Result, colours: Dict[str, str]) -> Iterator[str]:
    """A colour for each link of the chain: that of its box where the link before has another; of interrupts from the handler on."""
    handlers, is_in_handler, last = {it.name for it in result.needs if it.handler}, False, None
    for it in result.chain:
        name = it.text.partition(" at ")[0]
        is_in_handler = is_in_handler or name in handlers
        palette = flame.INTERRUPTS if is_in_handler else flame.CALLS
        last = next(it for it in (colours.get(name), *palette) if it and it != last)
        yield last


def tree(result: Result) -> Iterator[str]:
    """The tree of needs, and the deepest chain of it in the same colours."""
    if result.frames is None:
        return
    root, colours = flame.painted(result.frames)
    yield "<h2>Where the bytes go<small>width: bytes of stack; blue and green: calls; orange and red: interrupts</small></h2>"
    yield '<figure class="wide" tabindex="0" role="region" aria-label="Where the bytes go">'
    yield from flame.svg(root)
    yield "</figure><h2>The deepest chain</h2>"
    yield from bar([(it.adds, colour, it.text) for it, colour in zip(result.chain, chain_colours(result, colours))])


def needs_table(result: Result) -> Iterator[str]:
    most = max((it.interrupts for it in result.needs), default=0) or 1
    key = " ".join(f'<i style="background:{colour}"></i>{name}' for name, colour in KEYS)
    yield '<h2>What each function needs</h2><table><tr><th scope="col">function</th>'
    yield "".join(f'<th class="count" scope="col">{name}</th>' for name in COLUMNS.split(", "))
    yield f'<th class="key" scope="col">{key}</th></tr>'
    for it in result.needs:
        lengths = "".join(f'<i style="width:{100 * count / most:.1f}%;background:{colour}"></i>' for count, colour in (
            (it.own, OWN), (it.calls - it.own, WITH_CALLS), (it.interrupts - it.calls, WITH_INTERRUPTS)) if count)
        yield (f'<tr><td class="name">{escape(it.name)}</td>'
               + "".join(f'<td class="count">{count}</td>' for count in (it.own, it.calls, it.interrupts))
               + f'<td class="lengths"><div>{lengths}</div></td></tr>')
    yield "</table>"


def cut(line: str) -> str:
    """A source line as the page has room for it."""
    return line if len(line) <= MOST_LETTERS else line[:MOST_LETTERS - 1] + "…"


def state(it: Finding) -> Tuple[str, str]:
    """The colour and the words of a place's state."""
    if it.reviewed:
        return GREEN, "reviewed"
    return (AMBER, "to review") if it.level != NOTE else (GREY, "no review needed")


def place_row(it: Finding) -> str:
    colour, words = state(it)
    at = it.at()
    name = escape(it.subject or at.function or "")
    where = f"<b>{escape(f'{at.file}:{at.line}')}</b> in {name}" if at.has_line() else name
    code = f"<code>{escape(cut(it.source))}</code>" if it.source else ""
    told = [f"reviewed: {it.reviewed.why}"] if it.reviewed else [it.message, *it.details, *texts.cured(it)]
    why = "".join(f'<div class="soft">{with_code(line)}</div>' for line in told)
    return (f'<tr class="place"><td class="state"><i class="mark" style="background:{colour}"></i>{words}</td><td class="name">{where}</td>'
            f'<td>{code}{why}</td><td class="soft">{escape(texts.words(it.locations) if it.subject else at.word or "")}</td></tr>')


def places(result: Result) -> Iterator[str]:
    """The places to review first, then those that need none, then those that were reviewed."""
    found = [it for it in result.findings if it.rule[2] == "3"]
    left, done = sum(it.level != NOTE and not it.reviewed for it in found), sum(it.reviewed is not None for it in found)
    yield f"<h2>Where a step may be flagged<small>{left} to review of {len(found)}, {done} reviewed</small></h2>"
    if not found:
        yield "<p>Nowhere: the bound holds for every run.</p>"
        return
    yield ('<table><tr class="heads"><th scope="col">state</th><th scope="col">place</th><th scope="col">what may happen there</th>'
           '<th scope="col">words</th></tr>')
    yield from (place_row(it) for it in sorted(found, key=lambda it: (it.reviewed is not None, it.level == NOTE, it.kind != ORDINARY)))
    yield "</table>"


def changes(result: Result, bound: Bound) -> Iterator[str]:
    """What each interrupt costs, and what grew, if that was asked for."""
    if result.interrupts:
        yield "<h2>What each interrupt costs</h2><table><tr><th scope=\"col\">interrupt</th><th scope=\"col\">bytes</th></tr>"
        yield from (f'<tr><td class="name">{escape(it.name)}</td><td>'
                    + ("no bound without it" if it.without is None else f"{bytes_of(bound.bytes - it.without)}: {it.without} without it")
                    + "</td></tr>" for it in result.interrupts)
        yield "</table>"
    if result.since:
        first, *rest = texts.changed(bound, result.since)
        yield f"<h2>What changed</h2><p>{escape(first)}</p><ul>" + "".join(f"<li>{escape(it.strip())}</li>" for it in rest) + "</ul>"


def known(bound: Bound) -> str:
    """How sure the number is, in words."""
    if bound.attained:
        return "a run as deep is known"
    return "no run as deep is known" + ("" if bound.seen is None else f"; the deepest one reaches {bound.seen}")


def room(bound: Bound) -> str:
    if bound.margin() < 0:
        return f"{bytes_of(-bound.margin())} more than the {bound.room} between static data and the end of SRAM."
    return f"{bound.margin()} of {bound.room} bytes stay free."


def told_of(it: Finding, firmware: str) -> str:
    """A finding as a paragraph with what stands behind it."""
    more = "".join(f'<div class="soft">{with_code(line)}</div>' for line in texts.behind(it))
    return f"<p><code>{escape(it.rule)}</code> {escape(texts.where(it, firmware))}: {with_code(it.message)}</p>{more}"


def verdict(result: Result, bound: Bound) -> Iterator[str]:
    """The bound and what is wrong with it."""
    number = f"<b>{bytes_of(bound.bytes)}</b> of stack at most: {known(bound)}. {room(bound)}"
    limits = [it for it in result.findings if it.rule[2] == "4"]
    if limits:
        yield f'<div class="verdict red" role="status">{number}'
        yield from (told_of(it, result.firmware) for it in limits)
        yield "</div>"
        return
    is_open = any(it.rule[2] == "3" and it.level != NOTE for it in result.findings)
    holds = bound.holds if bound.holds.startswith("holds") else f"holds {bound.holds}"
    yield f'<div class="verdict {"amber" if is_open else "green"}" role="status">{number}<p>{with_code(f"The bound {holds}.")}</p></div>'


def flagged(result: Result, bound: Bound, flags: List[Finding]) -> Iterator[str]:
    """What ends the bound before its time, and the bound up to there."""
    yield '<div class="verdict red" role="status"><b>No bound to rely on</b>'
    yield from (told_of(it, result.firmware) for it in flags)
    yield f'<p class="soft">Up to that step: {bytes_of(bound.bytes)} ({known(bound)}).</p></div>'


def rests_on(result: Result) -> Iterator[str]:
    """The premises, and apart from them the lines on which nothing rests and what is not counted."""
    assumed = [texts.line_of(it) for it in result.lines if it.assumes] + [texts.nested(it) for it in result.recursions]
    other = [texts.line_of(it) for it in result.lines if not it.assumes and it.origin == "tool"]
    remarks = [it for it in result.findings if it.rule[2] == "5"]
    for title, lines in (("What the bound rests on", assumed), ("Lines that stackcheck added", other)):
        if lines:
            yield f"<h2>{title}</h2><ul>"
            yield from (f"<li>{with_code(line)}</li>" for line in lines)
            yield "</ul>"
    if remarks:
        yield "<h2>Beside the bound</h2><ul>"
        yield from (f"<li>{escape(it.rule)} {with_code(it.message)}{''.join(f'; <code>{escape(one)}</code>' for one in it.spec_lines)}</li>"
                    for it in remarks)
        yield "</ul>"


def accepted(result: Result, bound: Bound) -> Iterator[str]:
    flags = [it for it in result.findings if it.rule[2] == "2" and it.asks()]
    if flags:
        yield from flagged(result, bound, flags)
        yield from places(result)
    else:
        yield from verdict(result, bound)
    yield from memory(result, bound)
    yield from tree(result)
    yield from needs_table(result)
    yield from changes(result, bound)
    if not flags:
        yield from places(result)
    yield from rests_on(result)


def refused(result: Result) -> Iterator[str]:
    yield '<div class="verdict red" role="status"><b>There is no bound</b>'
    yield from (told_of(it, result.firmware) for it in result.findings)
    yield "</div>"
    yield from rests_on(result)


def footer(result: Result) -> str:
    """Who wrote the page, by which command, and which program judged."""
    spec = f" · spec {escape(result.spec)}" if result.spec else ""
    call = f"<code>{escape(shlex.join(result.command))}</code>"
    judge = f"judged by {escape(result.judge.path)} (stackbound {escape(result.judge.version)}, SHA-256 {escape(result.judge.sha256)})"
    return f"<footer>stackcheck {escape(result.version)} · {call} · {escape(result.device)}{spec} · {judge} · {TERMS}</footer>"


def html(result: Result) -> str:
    name = escape(os.path.basename(result.firmware))
    return "\n".join([
        "<!DOCTYPE html>", '<html lang="en"><head><meta charset="utf-8">'
                           '<meta name="viewport" content="width=device-width, initial-scale=1">' f"<title>Stack of {name}</title>", f"<style>{STYLE}</style></head><body><main>",
        f"<h1>Stack of {name}</h1>", f'<p class="what">{escape(texts.device(result).partition(" ")[2])}</p>',
        *(refused(result) if result.bound is None else accepted(result, result.bound)), "</main>", footer(result), "</body></html>", ""])
