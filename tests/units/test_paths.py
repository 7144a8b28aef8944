"""Paths of sources, as the folder of the call and that of the compiler give them."""

import os
import tempfile
import unittest

import stored

stored.use_tools()
from stackcheck_tools.firmware import paths  # noqa: E402


class Found(unittest.TestCase):
    def setUp(self) -> None:
        self.before = os.getcwd()
        self.folder = tempfile.TemporaryDirectory()
        os.chdir(self.folder.name)
        os.makedirs("src")
        with open(os.path.join("src", "m.c"), "w", encoding="ascii") as file:
            file.write("int x;\n  f ();\n")

    def tearDown(self) -> None:
        os.chdir(self.before)
        self.folder.cleanup()

    def test_a_build_in_a_folder_below_names_the_source_from_here(self) -> None:
        self.assertEqual(paths.found(os.path.join(os.getcwd(), "build"), os.path.join("..", "src", "m.c")), os.path.join("src", "m.c"))

    def test_a_build_elsewhere_is_found_by_its_longest_end(self) -> None:
        self.assertEqual(paths.found("/container/project/build", "../src/m.c"), os.path.join("src", "m.c"))

    def test_a_source_that_is_not_there_keeps_its_name(self) -> None:
        self.assertEqual(paths.found("/container/project", "other.c"), "other.c")
        self.assertEqual(paths.found("", "other.c"), "other.c")

    def test_the_text_of_a_line(self) -> None:
        self.assertEqual(paths.line_of(os.path.join("src", "m.c"), 2), "f ();")
        self.assertIsNone(paths.line_of(os.path.join("src", "m.c"), 3))
        self.assertIsNone(paths.line_of("none.c", 1))


if __name__ == "__main__":
    unittest.main()
