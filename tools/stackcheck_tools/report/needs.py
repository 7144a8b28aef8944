"""What each function needs: as CSV, and what grew since another build."""

from __future__ import annotations

import csv
import io
import json
from typing import Dict, NamedTuple, Optional, Tuple

from stackcheck_tools.finding import Change, Fault, Need, Result, Since

COLUMNS = "own frame, with calls, with interrupts"


def as_csv(result: Result) -> Optional[str]:
    if result.bound is None:
        return None
    text = io.StringIO()
    rows = csv.writer(text, lineterminator="\n")
    rows.writerow(["function", "own", "calls", "interrupts", "handler"])
    rows.writerows([it.name, it.own, it.calls, it.interrupts, "yes" if it.handler else "no"] for it in result.needs)
    return text.getvalue()


class Older(NamedTuple):
    """What a file that `--json` wrote says of a build: its bound, and the needs with interrupts by function."""

    bound: int
    needs: Dict[str, int]


def read(path: str) -> Older:
    """A file that `--json` wrote of a bound, by this version or one before the object had a version."""
    with open(path, encoding="utf8") as file:
        try:
            held = json.load(file)
        except ValueError:
            raise Fault(f"{path} was not written by --json", "SB010") from None
    rows = held.get("needs") if isinstance(held, dict) else None
    if not (isinstance(rows, list) and all(isinstance(it, dict) and "name" in it and "interrupts" in it for it in rows)):
        raise Fault(f"{path} was not written by --json", "SB010")
    bound = held.get("bound")
    number = bound.get("bytes") if isinstance(bound, dict) else bound
    if not isinstance(number, int):
        raise Fault(f"{path} has no bound to compare with", "SB010")
    return Older(number, {it["name"]: it["interrupts"] for it in rows})


def since(path: str, found: Tuple[Need, ...]) -> Since:
    """What changed since the build of a file."""
    before = read(path)
    old, now = before.needs, {it.name: it.interrupts for it in found}
    changes = [Change(name, old.get(name), now.get(name)) for name in {**now, **old} if old.get(name) != now.get(name)]
    return Since(path, before.bound, tuple(sorted(changes, key=lambda it: (-it.grown(), it.name))))
