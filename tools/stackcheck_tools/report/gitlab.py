"""The result as a code quality report of GitLab."""

from __future__ import annotations

import json
from typing import Dict

from stackcheck_tools.finding import Finding, Result
from stackcheck_tools.report.fingerprint import numbered

SEVERITIES = {"1": "blocker", "2": "blocker", "4": "critical", "3": "major", "5": "minor"}  # by groups of rules


def row(it: Finding, fingerprint: str, firmware: str) -> Dict[str, object]:
    at = it.at_line()
    path, line = (at.file, at.line) if at else (firmware, 1)
    return {"description": it.message, "check_name": it.rule, "fingerprint": fingerprint, "severity": SEVERITIES[it.rule[2]],
            "location": {"path": path, "lines": {"begin": line}}}


def text(it: Result) -> str:
    rows = [row(one, fingerprint, it.firmware) for one, fingerprint in numbered(it.findings) if one.asks()]
    return json.dumps(rows, indent=1, ensure_ascii=False) + "\n"
