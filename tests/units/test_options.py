"""The table of options: help, parser and completions are made of it."""

import unittest
from typing import NoReturn

import stored

stored.use_tools()
from stackcheck_tools import options  # noqa: E402
from stackcheck_tools.options import COMPLETIONS, COUNT, FLAG, OPTIONS  # noqa: E402


class Refused(Exception):
    """A usage error."""


def refuse(message: str) -> NoReturn:
    raise Refused(message)


class Options(unittest.TestCase):
    def test_help_has_each_within_80_columns(self) -> None:
        lines = options.text().splitlines()
        self.assertLessEqual(max(map(len, lines)), 80)
        for it in OPTIONS:
            self.assertEqual(sum(line.startswith("  --") and line.split()[0] == it.name for line in lines), 1, it.name)

    def test_the_parser_takes_each(self) -> None:
        for it in OPTIONS:
            if it.group != "Other":
                more = {FLAG: [], COUNT: ["7"]}.get(it.sort, ["auto"])
                words = options.parser(refuse).parse_args(["a.elf", it.name, *more])
                self.assertEqual(getattr(words, it.key()), {FLAG: True, COUNT: 7}.get(it.sort, "auto"), it.name)

    def test_what_may_not_stand_together_is_refused(self) -> None:
        for it in OPTIONS:
            for other in it.without:
                more = [] if it.sort == FLAG else ["7"]
                self.assertRaises(Refused, options.parser(refuse).parse_args, ["a.elf", it.name, *more, other, *more])

    def test_an_unknown_word_is_told_with_the_nearest(self) -> None:
        self.assertEqual(options.unknown(["a.elf", "--margn", "7"]), "unknown option --margn: did you mean --margin?")
        self.assertEqual(options.unknown(["a.elf", "--xyzzy"]), "unknown option --xyzzy")
        self.assertIsNone(options.unknown(["a.elf", "--json", "-", "--limit=7"]))

    def test_completions_have_each_and_the_devices(self) -> None:
        for path, make in COMPLETIONS.items():
            text = make(["atmega328p", "attiny85"])
            for it in OPTIONS:
                self.assertIn(f" -l {it.name[2:]} " if path.endswith(".fish") else it.name, text, path)
            self.assertIn("atmega328p attiny85", text, path)


if __name__ == "__main__":
    unittest.main()
