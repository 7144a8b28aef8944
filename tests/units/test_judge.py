"""The program that judged, as reports name it."""

import hashlib
import os
import tempfile
import unittest

import stored

stored.use_tools()
from stackcheck_tools.analysis.judge import BUILT, judge_of  # noqa: E402
from stackcheck_tools.analysis.program import NoProgram  # noqa: E402
from stackcheck_tools.finding import Judge  # noqa: E402


def write(path: str, text: str) -> str:
    os.makedirs(os.path.dirname(path), exist_ok=True)
    with open(path, "w", encoding="ascii") as file:
        file.write(text)
    os.chmod(path, 0o755)
    return os.path.realpath(path)


class Judges(unittest.TestCase):
    def setUp(self) -> None:
        folder = tempfile.TemporaryDirectory()
        self.addCleanup(folder.cleanup)
        self.folder = folder.name

    def test_a_program_is_named_by_path_version_and_digest(self) -> None:
        text = "#!/bin/sh\necho stackbound 1.2.3\n"
        path = write(os.path.join(self.folder, "stackbound"), text)
        self.assertEqual(judge_of(path), Judge(path, "1.2.3", hashlib.sha256(text.encode()).hexdigest()))

    def test_a_link_is_followed(self) -> None:
        path = write(os.path.join(self.folder, "program"), "#!/bin/sh\necho stackbound 1\n")
        link = os.path.join(self.folder, "link")
        os.symlink(path, link)
        self.assertEqual(judge_of(link).path, path)

    def test_behind_the_launcher_of_a_checkout_it_is_the_built_program(self) -> None:
        launcher = write(os.path.join(self.folder, "stackbound"), "#!/bin/sh\necho stackbound launcher\n")
        built = write(os.path.join(self.folder, BUILT), "#!/bin/sh\necho stackbound 4\n")
        found = judge_of(launcher)
        self.assertEqual((found.path, found.version), (built, "4"))

    def test_a_program_that_prints_nothing_has_no_known_version(self) -> None:
        self.assertEqual(judge_of(write(os.path.join(self.folder, "silent"), "#!/bin/sh\n")).version, "unknown")

    def test_no_program_is_said_so(self) -> None:
        with self.assertRaises(NoProgram):
            judge_of(os.path.join(self.folder, "none"))


if __name__ == "__main__":
    unittest.main()
