"""The rules of SARIF 2.1.0 (OASIS, 2020; numbers of its paragraphs in brackets) and of GitHub's code scanning that an output may break:
types and fields by the schema, and then what a schema does not say."""

import re
from typing import Iterator
from urllib.parse import urlparse

import schema

RESULTS, LOCATIONS, STEPS, TAGS = 25_000, 1_000, 10_000, 20  # the most that code scanning takes
VERSION = r"\d+\.\d+\.\d+(-[0-9A-Za-z.-]+)?(\+[0-9A-Za-z.-]+)?"


def of_uri(artifact, at) -> Iterator[str]:
    uri, base = artifact.get("uri", ""), artifact.get("uriBaseId")
    scheme = urlparse(uri).scheme
    if not uri or re.search(r"[\\ ]|[^ -~]", uri):
        yield f"{at}: {uri!r} is not a URI"
    if scheme and base:
        yield f"{at}: an absolute URI with uriBaseId (3.4.4)"
    if not scheme and (uri.startswith("/") or ".." in uri.split("/") or not base):
        yield f"{at}: {uri!r} is not relative to the folder of sources"


def of_location(it, at) -> Iterator[str]:
    physical = it.get("physicalLocation", {})
    yield from of_uri(physical.get("artifactLocation", {}), at)
    if "startLine" not in physical.get("region", {}):
        yield f"{at}: no line"
    if any(not one.get("name") for one in it.get("logicalLocations", ())):
        yield f"{at}: a logical location without a name"
    if "message" in it and not it["message"]["text"]:
        yield f"{at}: a message without a text"


def of_rule(it) -> Iterator[str]:
    uri = urlparse(it.get("helpUri", ""))
    if not uri.scheme or uri.fragment != it["id"].lower():
        yield f"{it['id']}: helpUri {it.get('helpUri')!r} is not the absolute URI of its heading (3.49.12)"
    if "level" not in it.get("defaultConfiguration", {}):
        yield f"{it['id']}: level"
    if not all(it.get(name, {}).get("text") for name in ("shortDescription", "fullDescription", "help")):
        yield f"{it['id']}: shortDescription, fullDescription and help.text are needed"
    tags = it.get("properties", {}).get("tags", ())
    if it.get("name") == it["id"] or len(tags) > TAGS or len(set(tags)) != len(tags):
        yield f"{it['id']}: name or tags"


def of_flow(it, at) -> Iterator[str]:
    for flow in it.get("codeFlows", ()):
        for thread in flow.get("threadFlows") or [{}]:
            steps = thread.get("locations", ())
            if not 0 < len(steps) <= STEPS:
                yield f"{at}: {len(steps)} steps"
            for step in steps:
                yield from of_location(step.get("location", {}), f"{at}.codeFlows")


def of_result(it, rules, at) -> Iterator[str]:
    if not it["message"]["text"]:
        yield f"{at}: no message"
    if it.get("ruleId") not in rules or rules[it.get("ruleIndex", -1)] != it["ruleId"]:
        yield f"{at}: rule {it.get('ruleId')} at {it.get('ruleIndex')}"
    if "level" not in it:
        yield f"{at}: no level (3.27.10)"
    if not 0 < len(it.get("locations", ())) <= LOCATIONS:
        yield f"{at}: {len(it.get('locations', ()))} locations"
    for one in it.get("locations", ()):
        yield from of_location(one, f"{at}.locations")
    related = it.get("relatedLocations", ())
    if len({one.get("id", -1) for one in related} - {-1}) != len(related):
        yield f"{at}: ids of relatedLocations (3.28.2)"
    for one in related:
        yield from of_location(one, f"{at}.relatedLocations")
    yield from of_flow(it, at)
    if not it.get("partialFingerprints", {}).get("primaryLocationLineHash"):
        yield f"{at}: no fingerprint"


def of_notifications(it, rules, at) -> Iterator[str]:
    told = it.get("toolExecutionNotifications", ())
    if any(not one["message"]["text"] or one.get("associatedRule", {}).get("id") not in rules for one in told):
        yield f"{at}: a notification without a text or a rule"
    if it["executionSuccessful"] and any(one.get("level") == "error" for one in told):
        yield f"{at}: an error, and yet executionSuccessful (3.20.14)"


def faults(log) -> Iterator[str]:
    """Yields what is wrong with an output."""
    whole = schema.read(schema.SARIF)
    found = list(schema.faults(log, whole, whole))
    if found or "$schema" not in log or len(log["runs"]) != 1:
        yield from found or ["the head"]
        return
    run = log["runs"][0]
    driver = run["tool"]["driver"]
    if not driver["name"] or not re.fullmatch(VERSION, driver.get("semanticVersion", "")):
        yield "the driver's name or version"
    rules = [it["id"] for it in driver.get("rules", ())]
    if len(set(rules)) != len(rules):
        yield "a rule twice"
    for it in driver.get("rules", ()):
        yield from of_rule(it)
    for number, it in enumerate(run.get("invocations", ())):
        yield from of_notifications(it, rules, f"invocations[{number}]")
    results = run.get("results", [])
    if "results" not in run or len(results) > RESULTS:
        yield "results"
    for number, it in enumerate(results):
        yield from of_result(it, rules, f"results[{number}]")
    prints = [(it.get("ruleId"), it.get("partialFingerprints", {}).get("primaryLocationLineHash")) for it in results]
    if len(set(prints)) != len(prints):
        yield "a fingerprint twice"
