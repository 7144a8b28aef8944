"""The call graph with needs, as a text of Graphviz: calls as lines, interrupts as dashed ones."""

from __future__ import annotations

from typing import Optional

from stackcheck_tools.finding import Result


def quoted(text: str) -> str:
    return '"' + text.replace("\\", "\\\\").replace('"', '\\"') + '"'


def text(result: Result) -> Optional[str]:
    if result.bound is None:
        return None
    lines = ["digraph stack {", "  rankdir=LR;", '  node [shape=box, style=filled, fontname="Helvetica", fillcolor="#dce8f5"];']
    for it in result.needs:
        colour = ', fillcolor="#f8dcc4"' if it.handler else ""
        label = quoted(f"{it.name}\n{it.own} own, {it.calls} calls, {it.interrupts} all").replace("\n", "\\n")
        lines.append(f"  {quoted(it.name)} [label={label}{colour}];")
    lines += [f"  {quoted(it.caller)} -> {quoted(it.called)}{' [style=dashed]' if it.interrupt else ''};" for it in result.calls]
    return "\n".join([*lines, "}", ""])
