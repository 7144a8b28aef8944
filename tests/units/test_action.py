"""The action of GitHub: its inputs are those that its steps and its script use, and those that the documents name."""

import os
import re
import unittest
from typing import Set

from stored import TOP


def text(*path: str) -> str:
    with open(os.path.join(TOP, *path), encoding="utf8") as file:
        return file.read()


def inputs() -> Set[str]:
    """The inputs that the action has."""
    return set(re.findall(r"^  (\w+):$", text("action.yml").partition("\noutputs:")[0], re.M))


class Action(unittest.TestCase):
    def test_each_input_is_used_and_no_other(self) -> None:
        self.assertEqual(set(re.findall(r"inputs\.(\w+)", text("action.yml"))), inputs())

    def test_the_script_reads_what_its_step_gives(self) -> None:
        step = text("action.yml").partition("- id: check")[2].partition("run:")[0]
        given = re.findall(r"^        ([A-Z]+): \$\{\{ inputs\.(\w+) \}\}$", step, re.M)
        self.assertTrue(given and all(name == one.upper() for name, one in given))
        self.assertEqual(set(re.findall(r"\$([A-Z]+)\b", text("tools", "action"))), {name for name, _ in given})

    def test_no_input_stands_in_a_command(self) -> None:
        """What a workflow gives is an environment's value, and never a part of a shell's text."""
        for line in re.findall(r"^ +run: (.*)$", text("action.yml"), re.M):
            self.assertNotIn("${{", line)

    def test_the_documents_name_inputs_that_there_are(self) -> None:
        block = text("docs", "FINDINGS.md").partition("uses: OWNER/REPOSITORY@TAG")[2].partition("```")[0]
        self.assertLessEqual(set(re.findall(r"(\w+): ", block)) - {"with"}, inputs())
        table = text("docs", "FINDINGS.md").partition("| Input | What it is |")[2].partition("\n\n")[0]
        self.assertEqual({it for line in table.splitlines() for it in re.findall(r"`(\w+)`", line.split(" | ")[0])}, inputs())


if __name__ == "__main__":
    unittest.main()
