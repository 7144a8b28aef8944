"""The tree of needs as values: from the start, what each function and handler enters at the deepest."""

from __future__ import annotations

from typing import Dict, List, Tuple

from stackcheck_tools.finding import Frame
from stackcheck_tools.report.call_graph import Entry, Graph, Instance
from stackcheck_tools.report.flame import Box

MOST_ROWS, MOST_CHILDREN = 40, 8


def shown_entries(graph: Graph, instance: Instance, begin: int) -> List[Tuple[int, Entry]]:
    """What an instance enters, by name at the deepest; of handlers the deepest alone, and only where nothing that is called goes as
    deep."""
    deepest: Dict[Tuple[str, bool], Tuple[int, Entry]] = {}
    for it in instance.entries.values():
        other = graph.instances[it.other]
        key, reach = (other.name, it.is_interrupt), it.depth + other.need
        if key not in deepest or deepest[key][0] < reach:
            deepest[key] = reach, it
    found = sorted(deepest.values(), key=lambda it: (-it[0], graph.instances[it[1].other].name))
    called = [it for it in found if not it[1].is_interrupt]
    entered = [it for it in found if it[1].is_interrupt]
    most = max([instance.own, *(it[0] for it in called)])
    if entered and entered[0][0] > most:
        called = [entered[0], *called]
    return [(begin + it.depth, it) for _, it in called]


def tree(graph: Graph, number: int, begin: int, most: int, is_interrupt: bool = False) -> Frame:
    instance = graph.instances[number]
    entries = shown_entries(graph, instance, begin)
    children = [tree(graph, it.other, at, most, it.is_interrupt or is_interrupt) for at, it in entries[:most]]
    if rest := entries[most:]:
        at = max(begin for begin, _ in rest)
        end = max(begin + graph.instances[it.other].need for begin, it in rest)
        children.append(Frame(f"{len(rest)} more", at, end, "more"))
    return Frame(instance.name, begin, begin + instance.own, "interrupt" if is_interrupt else "call", tuple(children))


def made(graph: Graph) -> Frame:
    """The tree with as many frames as a drawing has room for."""
    for most in range(MOST_CHILDREN, 0, -1):
        root = tree(graph, 0, 0, most)
        if Box(root).rows() <= MOST_ROWS:
            break
    return root
