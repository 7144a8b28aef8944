"""Findings as values: rules and their page, the status, and what is made of a result."""

import copy
import json
import ntpath
import os
import re
import unittest
from dataclasses import replace
from typing import Callable, Dict, Iterator, List, Tuple
from unittest import mock

import stored

stored.use_tools()
import made  # noqa: E402
import sarif_rules  # noqa: E402
import schema  # noqa: E402
from stackcheck_tools.finding import Fault, Finding, Location  # noqa: E402
from stackcheck_tools.report import fingerprint, github, gitlab, machine_report, sarif, text  # noqa: E402
from stackcheck_tools.rules import ALL, GROUPS  # noqa: E402

PAGE = os.path.join(stored.TOP, "docs", "FINDINGS.md")
EVERY = (made.FLAG, made.LIMIT, made.PLACE, made.REVIEWED, made.SAFE, made.HEAP)


def page() -> str:
    with open(PAGE, encoding="utf8") as file:
        return file.read()


class Rules(unittest.TestCase):
    def test_ids_and_names_are_unique_and_in_order(self) -> None:
        self.assertEqual([it.id for it in ALL], sorted({it.id for it in ALL}))
        self.assertEqual(len({it.name for it in ALL}), len(ALL))
        self.assertTrue(all(re.fullmatch(r"SB[0-5]\d\d", it.id) and re.fullmatch(r"[a-z]+(-[a-z]+)*", it.name) for it in ALL))
        self.assertEqual({it.id[2] for it in ALL}, set(GROUPS))

    def test_the_page_has_a_heading_for_each_with_its_words(self) -> None:
        found = re.findall(r"^### (SB\d+)\n\n`([^`]*)`, (\w+): (.*)\n\n.*\n\nWhat to do: (.*)\n\nExample: .+$", page(), re.M)
        self.assertEqual(found, [(it.id, it.name, it.level, it.message, it.help) for it in ALL])

    def test_the_page_has_each_field_of_the_schema(self) -> None:
        part = page().partition("\n## JSON\n")[2].partition("\n## ")[0]
        rows = [line.split(" | ")[0] for line in part.splitlines() if line.startswith("| `")]
        told = set()
        for row in rows:
            names = re.findall(r"`([^`]*)`", row)
            folder = names[0].rpartition(".")[0]
            for it in names:
                folder = it.rpartition(".")[0] or folder
                told.add((f"{folder}{it}" if it.startswith(".") else it).removesuffix("[]"))
        whole = schema.read()
        fields = {it for it in schema.fields(whole, whole) if not re.search(r"location\.", it)}
        folders = {it for it in fields if any(other.startswith((f"{it}.", f"{it}[].")) for other in fields)}
        self.assertEqual(told - fields, set())
        self.assertEqual(fields - folders - told, set())


class Status(unittest.TestCase):
    def test_it_is_that_of_the_worst_group_with_an_error(self) -> None:
        order = (("SB101", 2), ("SB201", 4), ("SB401", 1), ("SB301", 5))
        for number, (rule, status) in enumerate(order):
            later = [Finding(it, "error", "") for it, _ in order[number:]]
            self.assertEqual(made.result(*later).status(), status, rule)

    def test_what_asks_nobody_makes_none(self) -> None:
        self.assertEqual(made.result(made.REVIEWED, made.SAFE, made.HEAP, replace(made.PLACE, level="warning")).status(), 0)


class Json(unittest.TestCase):
    def faults(self, value: Dict[str, object]) -> List[str]:
        whole = schema.read()
        return list(schema.faults(value, whole, whole))

    def test_it_is_valid(self) -> None:
        for it in (made.result(*EVERY), made.result(), made.result(Finding("SB107", "error", "too large"), bound=False),
                   replace(made.result(), search=made.STEPS)):
            self.assertEqual(self.faults(json.loads(machine_report.text(it))), [])

    def test_the_schema_refuses_what_is_wrong(self) -> None:
        right = json.loads(machine_report.text(replace(made.result(*EVERY), search=made.STEPS)))
        edits: List[Callable[[Dict], object]] = [  # type: ignore[type-arg]
            lambda it: it.update(more=1), lambda it: it.pop("status"), lambda it: it.update(status=3), lambda it: it.update(status=0),
            lambda it: it.update(status=2), lambda it: it.update(version=2), lambda it: it.update(version=True),
            lambda it: it["findings"][0]["locations"][0].update(line=0), lambda it: it["findings"][0].update(rule="SB999"),
            lambda it: it["findings"][0]["locations"][0].update(word="00ff"), lambda it: it["bound"].update(bytes="50"),
            lambda it: it["bound"].update(bytes=-1), lambda it: it["findings"][0].update(fingerprint="0123456789abcdef"),
            lambda it: it["findings"][0].update(level="fatal"), lambda it: it["needs"][0].pop("name"),
            lambda it: it["findings"][0]["related"][0].update(role="x"), lambda it: it["search"][1].pop("dropped"),
            lambda it: it["search"][0].update(added="pairs"), lambda it: it.pop("search")]
        for number, edit in enumerate(edits):
            wrong = copy.deepcopy(right)
            edit(wrong)
            self.assertNotEqual(self.faults(wrong), [], f"edit {number}")


class Fingerprints(unittest.TestCase):
    def test_they_survive_moved_lines_and_spaces(self) -> None:
        moved = replace(made.PLACE, locations=(replace(made.LINE, line=70, offset=2, word="0099"),), source="f ( );", message="other")
        self.assertEqual(fingerprint.of(made.PLACE), fingerprint.of(moved))

    def test_others_differ_and_equal_ones_are_counted(self) -> None:
        other = replace(made.PLACE, source="g();")
        found = [it for _, it in fingerprint.numbered([made.PLACE, other, made.PLACE])]
        self.assertEqual([it[-2:] for it in found], [":1", ":1", ":2"])
        self.assertEqual(len(set(found)), 3)


def spots(value: object, path: Tuple[object, ...] = ()) -> Iterator[Tuple[object, ...]]:
    """Yields the path of each value within a value."""
    yield path
    inner = value.items() if isinstance(value, dict) else enumerate(value) if isinstance(value, list) else ()
    for key, it in inner:
        yield from spots(it, (*path, key))


class Sarif(unittest.TestCase):
    def log(self) -> Dict:  # type: ignore[type-arg]
        return json.loads(sarif.text(made.result(*EVERY)))  # type: ignore[no-any-return]

    def of_fault(self, place: Location) -> Dict:  # type: ignore[type-arg]
        fault = Fault("there is no function x", "SB006", place)
        return json.loads(sarif.text_of_fault(fault, ("stackcheck",), "0.10.0", 3))  # type: ignore[no-any-return]

    def logs(self) -> List[Dict]:  # type: ignore[type-arg]
        """Logs that have each field that is ever written."""
        caused = Finding("SB107", "error", "too large", cause="masks")
        return [self.log(), self.of_fault(Location("stack.spec", 3)), self.of_fault(Location()),
                json.loads(sarif.text(made.result(caused, bound=False)))]

    def test_it_keeps_the_rules_and_leaves_out_what_asks_nobody(self) -> None:
        log = self.log()
        self.assertEqual(list(sarif_rules.faults(log)), [])
        self.assertEqual([it["ruleId"] for it in log["runs"][0]["results"]], ["SB201", "SB402", "SB301", "SB501"])
        self.assertEqual(log["runs"][0]["invocations"],
                         [{"commandLine": "stackcheck 'a b.elf'", "exitCode": 4, "executionSuccessful": True}])

    def test_paths_are_relative_and_encoded(self) -> None:
        first, second, *_ = self.log()["runs"][0]["results"]
        self.assertEqual(first["locations"][0]["physicalLocation"]["artifactLocation"], {"uri": "src/a%20b%25.c", "uriBaseId": "%SRCROOT%"})
        self.assertEqual(second["locations"][0]["physicalLocation"]["artifactLocation"], {"uri": "file:///usr/share/b%C3%B6se.c"})

    def test_paths_of_windows_have_slashes_and_a_drive(self) -> None:
        with mock.patch.object(os, "path", ntpath), mock.patch.object(os, "sep", "\\"):
            self.assertEqual(sarif.uri("src\\a b.c"), {"uri": "src/a%20b.c", "uriBaseId": "%SRCROOT%"})
            self.assertEqual(sarif.uri("C:\\src\\a b.c"), {"uri": "file:///C:/src/a%20b.c"})

    def test_each_log_keeps_the_rules_and_all_have_each_field_of_the_schema(self) -> None:
        whole, written = schema.read(schema.SARIF), set()
        for log in self.logs():
            self.assertEqual(list(sarif_rules.faults(log)), [])
            written |= {it for path in spots(log) for it in path}
        self.assertEqual({it.rpartition(".")[2] for it in schema.fields(whole, whole)} - written, set())

    def test_a_value_of_another_type_is_seen_everywhere(self) -> None:
        other: Dict[type, object] = {str: 7, int: "7", bool: "true", dict: [], list: {}}
        for log in self.logs():
            for path in spots(log):
                wrong = inner = {"log": copy.deepcopy(log)}
                *folders, last = ("log", *path)
                for key in folders:
                    inner = inner[key]  # type: ignore[index]
                inner[last] = other[type(inner[last])]  # type: ignore[index]
                self.assertNotEqual(list(sarif_rules.faults(wrong["log"])), [], path)

    def test_a_field_more_is_seen_everywhere(self) -> None:
        for log in self.logs():
            for path in spots(log):
                inner = wrong = copy.deepcopy(log)
                for key in path:
                    inner = inner[key]
                if isinstance(inner, dict):
                    inner["more"] = 1
                    self.assertNotEqual(list(sarif_rules.faults(wrong)), [], path)

    def test_each_rule_names_the_page_that_has_its_heading(self) -> None:
        for it in self.log()["runs"][0]["tool"]["driver"]["rules"]:
            path, _, fragment = it["helpUri"].removeprefix("file://").partition("#")
            self.assertEqual((os.path.realpath(path), fragment), (os.path.realpath(PAGE), it["id"].lower()))

    def test_a_fault_of_the_spec_is_a_result_and_others_are_told(self) -> None:
        for place, results in ((Location("stack.spec", 3), 1), (Location(), 0)):
            run = self.of_fault(place)["runs"][0]
            self.assertEqual((len(run["results"]), run["invocations"][0]["executionSuccessful"]), (results, False))
            self.assertEqual("toolExecutionNotifications" in run["invocations"][0], not results)

    def test_what_is_wrong_is_seen(self) -> None:
        edits: List[Callable[[Dict, Dict], object]] = [  # type: ignore[type-arg]
            lambda run, it: it["locations"][0]["physicalLocation"]["artifactLocation"].update(uri="/home/x.c"),
            lambda run, it: it["locations"][0]["physicalLocation"]["artifactLocation"].update(uri="../x.c"),
            lambda run, it: it["locations"][0]["physicalLocation"]["artifactLocation"].update(uri="a b.c"),
            lambda run, it: it["locations"][0]["physicalLocation"]["artifactLocation"].update(uri="file:///x.c"),
            lambda run, it: it["locations"][0]["physicalLocation"]["region"].update(startLine=0),
            lambda run, it: it.update(locations=[]), lambda run, it: it.update(ruleId="SB9"), lambda run, it: it.update(ruleIndex=1),
            lambda run, it: it.update(level="bad"), lambda run, it: it.update(kind="review"), lambda run, it: it.pop("partialFingerprints"),
            lambda run, it: it.pop("level"), lambda run, it: it.pop("message"), lambda run, it: run.pop("tool"),
            lambda run, it: run.update(columnKind="bytes"), lambda run, it: run["tool"]["driver"].pop("semanticVersion"),
            lambda run, it: it["relatedLocations"][0].pop("id"), lambda run, it: it["relatedLocations"][0].update(message={"text": ""}),
            lambda run, it: run["results"][1]["codeFlows"][0].update(threadFlows=[]),
            lambda run, it: run["results"][1]["codeFlows"][0]["threadFlows"][0]["locations"][0].update(nestingLevel=-1),
            lambda run, it: run["tool"]["driver"]["rules"][0]["properties"].update(tags=["stack", "stack"]),
            lambda run, it: run["invocations"][0].update(toolExecutionNotifications=[{"level": "error", "message": {"text": "x"}}]),
            lambda run, it: run["results"].append(copy.deepcopy(it)), lambda run, it: it["message"].pop("text"),
            lambda run, it: run["tool"]["driver"]["rules"][0].update(helpUri="docs/FINDINGS.md#sb201"),
            lambda run, it: run["tool"]["driver"]["rules"][0].pop("helpUri"),
            lambda run, it: run["tool"]["driver"]["rules"][0].pop("help"), lambda run, it: run.update(results=None),
            lambda run, it: run["invocations"][0].pop("executionSuccessful"), lambda run, it: run.update(more=1)]
        for number, edit in enumerate(edits):
            log = self.log()
            edit(log["runs"][0], log["runs"][0]["results"][0])
            self.assertNotEqual(list(sarif_rules.faults(log)), [], f"edit {number}")


class Annotations(unittest.TestCase):
    def test_properties_and_messages_are_escaped(self) -> None:
        first, *_, last = github.told(made.result(*EVERY))
        self.assertEqual(first, "::error file=src/a b%25.c,line=7,title=SB201 unhandled-interrupt-fires::X_vect is enabled: 100%25,%0A"
                                "no handler; cure: write a handler")
        self.assertTrue(last.startswith("::notice title=stack::bound 8, "))

    def test_a_colon_or_comma_ends_no_property(self) -> None:
        it = replace(made.FLAG, locations=(Location("a:b,c.c", 1),))
        self.assertIn("::error file=a%3Ab%2Cc.c,line=1,", github.line(it))

    def test_gitlab_has_a_path_and_a_line_for_each(self) -> None:
        rows = json.loads(gitlab.text(made.result(*EVERY)))
        self.assertEqual([(it["check_name"], it["severity"], it["location"]["path"]) for it in rows],
                         [("SB201", "blocker", "src/a b%.c"), ("SB402", "critical", "/usr/share/böse.c"), ("SB301", "major", "src/a b%.c"),
                          ("SB501", "minor", "build/a b.elf")])


class Text(unittest.TestCase):
    def test_errors_stand_in_front_and_notes_have_no_level(self) -> None:
        told = text.text(made.result(*EVERY))
        self.assertEqual(re.findall(r": (error|warning|note): [^\[]* \[(SB\d+)\]$", told, re.M),
                         [("error", "SB201"), ("error", "SB402"), ("error", "SB301"), ("warning", "SB501")])
        self.assertTrue(told.startswith("src/a b%.c:7: error: "))

    def test_steps_of_the_search_stand_behind_all_else(self) -> None:
        for it in (made.result(), made.result(Finding("SB107", "error", "too large"), bound=False)):
            plain = text.text(it)
            self.assertEqual(text.text(replace(it, search=())), f"{plain}search of lines (+ added, - taken back):\n  none was added\n")
            self.assertEqual(text.text(replace(it, search=made.STEPS)).removeprefix(plain).splitlines()[1:],
                             ["  register pairs are followed", "    + pairs", "  refused 2 recursion at 0040: taken back", "    - pairs",
                              "    + free main 1"])

    def test_quiet_says_nothing_with_status_0(self) -> None:
        self.assertEqual(text.quiet(made.result(made.SAFE, made.HEAP)), "")
        self.assertEqual(len(text.quiet(made.result(made.PLACE, made.HEAP)).splitlines()), 5)

    def test_colours_are_of_levels_alone(self) -> None:
        plain, coloured = (text.text(made.result(*EVERY), it) for it in (False, True))
        self.assertEqual(re.sub(r"\033\[[\d;]*m", "", coloured), plain)
        self.assertIn("\033[1;31merror\033[0m", coloured)
        self.assertIn("\033[32mbound 8\033[0m", text.text(made.result(made.SAFE), True))


if __name__ == "__main__":
    unittest.main()
