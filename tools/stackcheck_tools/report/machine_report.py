"""The result as one object of JSON, by the schema beside this module; docs/FINDINGS.md says what each field means."""

from __future__ import annotations

import json
from dataclasses import asdict
from typing import Dict, Optional

from stackcheck_tools.finding import Bound, Finding, Result
from stackcheck_tools.report.fingerprint import numbered
from stackcheck_tools.rules import BY_ID

VERSION = 1  # rises if a field goes or changes its meaning; a field that is added leaves it


def finding(it: Finding, fingerprint: str) -> Dict[str, object]:
    return {"rule": it.rule, "name": BY_ID[it.rule].name, "level": it.level, "message": it.message, "kind": it.kind, "subject": it.subject,
            "locations": [asdict(at) for at in it.locations], "related": [asdict(one) for one in it.related], "details": list(it.details),
            "source": it.source, "cause": it.cause, "why": it.why, "cure": it.cure, "spec_lines": list(it.spec_lines), "record": it.record,
            "reviewed": it.reviewed and asdict(it.reviewed), "fingerprint": fingerprint}


def bound(it: Optional[Bound]) -> Optional[Dict[str, object]]:
    if it is None:
        return None
    return {"bytes": it.bytes, "holds": it.holds, "attained": it.attained, "seen": it.seen, "room": it.room, "margin": it.margin(),
            "sram": it.sram, "places": [asdict(one) for one in it.places]}


def value(it: Result) -> Dict[str, object]:
    return {
        "schema": "stackcheck", "version": VERSION, "tool": {"name": "stackcheck", "version": it.version}, "program": asdict(it.judge),
        "command": list(it.command),
        "firmware": {"path": it.firmware, "format": it.format, "device": it.device, "linked_for": it.linked_for},
        "spec": it.spec, "certificate": it.certificate, "status": it.status(), "bound": bound(it.bound),
        "findings": [finding(*one) for one in numbered(it.findings)], "lines": [asdict(one) for one in it.lines],
        "chain": [asdict(one) for one in it.chain], "needs": [asdict(one) for one in it.needs],
        "recursions": [asdict(one) for one in it.recursions],
        "interrupts": None if it.interrupts is None else [asdict(one) for one in it.interrupts], "since": it.since and asdict(it.since),
        "search": None if it.search is None else [asdict(one) for one in it.search]}


def text(it: Result) -> str:
    return json.dumps(value(it), indent=1, ensure_ascii=False) + "\n"
