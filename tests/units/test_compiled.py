"""What is compiled once for all calls, outside the checkout."""

import os
import shutil
import subprocess
import sys
import tempfile
import unittest
from typing import List

TOP = os.path.dirname(os.path.dirname(os.path.dirname(os.path.abspath(__file__))))


class Compiled(unittest.TestCase):

    def setUp(self) -> None:
        held = tempfile.TemporaryDirectory()
        self.addCleanup(held.cleanup)
        self.tools, self.cache = os.path.join(held.name, "tools"), os.path.join(held.name, "cache")
        os.mkdir(self.cache)
        shutil.copy(os.path.join(TOP, "VERSION"), held.name)
        shutil.copytree(os.path.join(TOP, "tools"), self.tools, ignore=shutil.ignore_patterns("__pycache__"))

    def said(self, **more: str) -> str:
        """What a tool prints with this cache folder."""
        environment = {name: it for name, it in os.environ.items() if name != "PYTHONDONTWRITEBYTECODE"}
        said = subprocess.run([sys.executable, os.path.join(self.tools, "stackcheck"), "--version"], stdout=subprocess.PIPE,
                              stderr=subprocess.STDOUT, env={**environment, "XDG_CACHE_HOME": self.cache, **more})
        return said.stdout.decode()

    def compiled(self, folder: str) -> List[str]:
        return [name for _, _, files in os.walk(folder) for name in files if name.endswith(".pyc")]

    def test_it_lies_in_the_cache_folder_and_not_beside_the_sources(self) -> None:
        self.said()
        self.assertTrue(any(it.startswith("tool_stackcheck.") for it in self.compiled(self.cache)))
        self.assertFalse(any(it.startswith("argparse.") for it in self.compiled(self.cache)))
        self.assertEqual(self.compiled(self.tools), [])

    def test_a_source_of_the_same_size_and_time_is_told_apart(self) -> None:
        self.said()
        path = os.path.join(self.tools, "stackcheck_tools", "habits.py")
        before = os.stat(path)
        with open(path, "r+", encoding="utf8") as file:
            text = file.read()
            file.seek(0)
            file.write(text.replace("(stackbound)", "[stackbound]"))
        os.utime(path, ns=(before.st_atime_ns, before.st_mtime_ns))
        self.assertEqual(os.stat(path).st_size, before.st_size)
        self.assertIn("[stackbound]", self.said())
        self.assertIn("[stackbound]", self.said())

    @unittest.skipUnless(hasattr(os, "geteuid"), "a system of POSIX has owners and modes")
    def test_a_folder_into_which_others_write_is_not_used(self) -> None:
        os.mkdir(os.path.join(self.cache, "stackbound"))
        os.chmod(os.path.join(self.cache, "stackbound"), 0o777)
        self.assertIn("stackbound", self.said())
        self.assertEqual(self.compiled(self.cache), [])

    def test_nothing_is_written_where_python_writes_none(self) -> None:
        self.assertIn("stackbound", self.said(PYTHONDONTWRITEBYTECODE="1"))
        self.assertEqual(os.listdir(self.cache), [])

    def test_a_call_needs_no_cache_folder(self) -> None:
        with_one = self.said()
        self.assertEqual(self.said(XDG_CACHE_HOME=os.path.join(self.tools, "stackcheck")), with_one)


if __name__ == "__main__":
    unittest.main()
