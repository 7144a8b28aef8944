"""Places: the source lines that they show."""

import os
import tempfile
import unittest

from stored import path
from stackcheck_tools.analysis import places


class SourceLines(unittest.TestCase):
    def line(self, text: str) -> object:
        with tempfile.TemporaryDirectory() as folder:
            name = os.path.join(folder, "main.c")
            with open(name, "w", encoding="utf8") as file:
                file.write("first\n" + text)
            return places.line_of(name, 2)

    def test_a_line_loses_its_indentation(self) -> None:
        self.assertEqual(self.line("\t    x = 1;\n"), "x = 1;")
        self.assertEqual(places.line_of(path("late.c"), 13), "for (;;)")

    def test_a_line_of_100_letters_is_whole_and_a_longer_one_is_cut_there(self) -> None:
        self.assertEqual(self.line("  " + "x" * 100), "x" * 100)
        self.assertEqual(self.line("x" * 101), "x" * 97 + " ..")

    def test_an_empty_or_missing_line_has_no_text(self) -> None:
        self.assertIsNone(self.line("  \n"))
        self.assertIsNone(places.line_of("/nowhere/main.c", 2))


if __name__ == "__main__":
    unittest.main()
