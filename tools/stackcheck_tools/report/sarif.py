"""The result as SARIF 2.1.0 (OASIS, 2020), as code scanning of GitHub and editors read it. What asks nobody to act is left out."""

from __future__ import annotations

import json
import os
import shlex
from typing import Dict, Iterable, List, Optional, Sequence
from urllib.parse import quote

from stackcheck_tools import home
from stackcheck_tools.finding import ERROR, Fault, Finding, Link, Location, Result
from stackcheck_tools.report.fingerprint import numbered
from stackcheck_tools.rules import BY_ID, DOCUMENT, Rule

SCHEMA = "https://json.schemastore.org/sarif-2.1.0.json"
MOST_OTHERS = 7  # further instructions of a place


def absolute(path: str) -> str:
    """The URI of a file, whatever separates its folders; a drive keeps its colon."""
    return "file:///" + quote(os.path.abspath(path).replace(os.sep, "/").lstrip("/"), safe="/:")


def uri(path: str) -> Dict[str, object]:
    """A path below the folder of the call is relative to it; any other is absolute."""
    path = os.path.normpath(path)
    if os.path.isabs(path) or path.startswith(".."):
        return {"uri": absolute(path)}
    return {"uri": quote(path.replace(os.sep, "/")), "uriBaseId": "%SRCROOT%"}


def location(it: Location, firmware: str, message: Optional[str] = None) -> Dict[str, object]:
    """A place; without a source line it is the firmware's first."""
    found: Dict[str, object] = {"physicalLocation": {"artifactLocation": uri(it.file or firmware),
                                                     "region": {"startLine": it.line or 1}}}
    if it.function:
        name = it.function if it.offset is None else f"{it.function}+{it.offset}"
        found["logicalLocations"] = [{"name": it.function, "fullyQualifiedName": name, "kind": "function"}]
    if message:
        found["message"] = {"text": message}
    return found


def identified(number: int, it: Dict[str, object]) -> Dict[str, object]:
    return {"id": number, **it}


def flow(chain: Iterable[Link], firmware: str) -> List[Dict[str, object]]:
    """The deepest chain as steps."""
    return [{"threadFlows": [{"locations": [
        {"location": location(it.location, firmware, f"{it.adds} bytes: {it.text}"), "nestingLevel": level}
        for level, it in enumerate(chain)]}]}]


def message(it: Finding) -> str:
    """What a reader is told, one thing to a line."""
    more = [it.message]
    more += [f"Cause: {it.why}"] if it.why else []
    more += [f"Cure: {it.cure}"] if it.cure else []
    more += ["Spec: " + "; ".join(it.spec_lines)] if it.spec_lines else []
    more += [f"To record a review: {it.record}"] if it.record else []
    return "\n".join(more)


def entry(it: Finding, fingerprint: str, firmware: str, chain: Sequence[Link], index: Dict[str, int]) -> Dict[str, object]:
    """One of `results`."""
    found: Dict[str, object] = {
        "ruleId": it.rule, "ruleIndex": index[it.rule], "level": it.level, "message": {"text": message(it)},
        "locations": [location(it.at_line() or it.at(), firmware)],
        "partialFingerprints": {"primaryLocationLineHash": fingerprint, "stackcheck/v1": fingerprint.partition(":")[0]}}
    related = [location(at, firmware, "also here") for at in it.locations[1:MOST_OTHERS + 1]]
    related += [location(one.location, firmware, one.message) for one in it.related if one.role != "chain"]
    if related:
        found["relatedLocations"] = [identified(number, one) for number, one in enumerate(related)]
    if chain and any(one.role == "chain" for one in it.related):
        found["codeFlows"] = flow(chain, firmware)
    if it.cause:
        found["properties"] = {"cause": it.cause}
    return found


def help_uri(it: Rule) -> Dict[str, object]:
    """Where the rule's own words stand on this machine; nothing where the documents were not installed."""
    path = home.document(os.path.basename(DOCUMENT))
    return {} if path is None else {"helpUri": f"{absolute(path)}#{it.id.lower()}"}


def rule(it: Rule) -> Dict[str, object]:
    """One of the driver's `rules`."""
    more = f"{it.help} See {DOCUMENT}#{it.id.lower()}."
    return {"id": it.id, "name": "".join(part.capitalize() for part in it.name.split("-")), **help_uri(it),
            "shortDescription": {"text": it.message}, "fullDescription": {"text": it.message}, "help": {"text": more, "markdown": more},
            "defaultConfiguration": {"level": it.level}, "properties": {"tags": ["stack", "embedded"]}}


def driver(version: str, rules: Iterable[str]) -> Dict[str, object]:
    return {"driver": {"name": "stackcheck", "semanticVersion": version, "rules": [rule(BY_ID[name]) for name in rules]}}


def log(run: Dict[str, object]) -> str:
    return json.dumps({"$schema": SCHEMA, "version": "2.1.0", "runs": [run]}, indent=1, ensure_ascii=False) + "\n"


def text(it: Result) -> str:
    shown = [(one, fingerprint) for one, fingerprint in numbered(it.findings) if one.asks()]
    used = sorted({one.rule for one, _ in shown})
    index = {name: number for number, name in enumerate(used)}
    run: Dict[str, object] = {
        "tool": driver(it.version, used),
        "invocations": [{"commandLine": shlex.join(it.command), "exitCode": it.status(), "executionSuccessful": True}],
        "columnKind": "unicodeCodePoints", "results": [entry(one, fingerprint, it.firmware, it.chain, index) for one, fingerprint in shown]}
    if it.bound:
        run["properties"] = {"bound": it.bound.bytes, "room": it.bound.room, "attained": it.bound.attained, "device": it.device}
    return log(run)


def text_of_fault(fault: Fault, command: Iterable[str], version: str, status: int) -> str:
    """What a call left that ended before there was a result: at a line of the spec a result, else a notification."""
    at = fault.location
    invocation: Dict[str, object] = {"commandLine": shlex.join(command), "exitCode": status, "executionSuccessful": False}
    results: List[Dict[str, object]] = []
    if at.has_line():  # what is wrong says which line it is, wherever that stands
        told = numbered([Finding(fault.rule, ERROR, str(fault), (at,), source=str(fault))])
        results += [entry(it, fingerprint, at.file or "", (), {fault.rule: 0}) for it, fingerprint in told]
    else:
        invocation["toolExecutionNotifications"] = [{"level": "error", "message": {"text": str(fault)},
                                                     "associatedRule": {"id": fault.rule}}]
    return log({"tool": driver(version, [fault.rule]), "invocations": [invocation], "columnKind": "unicodeCodePoints", "results": results})
