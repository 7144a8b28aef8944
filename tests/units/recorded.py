"""Recorded answers of the program: what each question of a search was answered, and what the search came to."""

import json
import lzma
import os
from typing import Dict, List, NamedTuple, Tuple

from stored import TOP, path

from stackcheck_tools.analysis import questions
from stackcheck_tools.analysis.questions import Answer, Question
from stackcheck_tools.analysis.state import Facts, State
from stackcheck_tools.firmware.firmware import Firmware
from stackcheck_tools.spec.lines import Lines

FOLDER = os.path.join(TOP, "tests", "recorded")


class Table(NamedTuple):
    """Status and text by question, the last lines, and the certificate or the refusal under them."""

    answers: Dict[str, Tuple[int, str]]
    lines: str
    end: str

    def answer(self, question: Question) -> Answer:
        """What the program said to a question; a question that it wasn't asked is a fault of the test, or the table is too old."""
        name = questions.key(question)
        if name not in self.answers:
            raise AssertionError(f"no recorded answer to {name}: `tests/answers --renew` asks the program anew")
        return questions.answer_of(question, *self.answers[name])


def names() -> List[str]:
    """The stored files that have a table."""
    return sorted(it[:-len(".xz")] for it in os.listdir(FOLDER) if it.endswith(".xz"))


def read(name: str) -> Table:
    with lzma.open(os.path.join(FOLDER, f"{name}.xz"), "rt", encoding="utf8") as file:
        found = json.load(file)
    return Table({key: (status, text) for key, (status, text) in found["answers"].items()}, found["lines"], found["end"])


def write(name: str, table: Table) -> None:
    """Writes a table, the same bytes for the same one."""
    text = json.dumps({"answers": table.answers, "lines": table.lines, "end": table.end}, sort_keys=True)
    with open(os.path.join(FOLDER, f"{name}.xz"), "wb") as file:
        file.write(lzma.compress(text.encode(), preset=9))


def facts(name: str) -> Facts:
    return Facts(Firmware(path(name), None))


def begin(facts: Facts) -> State:
    """Where a search without a spec begins."""
    return State(Lines(facts.device))


def end(state: State) -> Tuple[str, str]:
    """The last lines, and what the program said to them."""
    return state.lines.text(), (state.answer.text if state.answer else "")
