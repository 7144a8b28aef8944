"""Answers the questions of a search by the program."""

from __future__ import annotations

import hashlib
import os
from typing import Dict, List, Optional, Tuple

from stackcheck_tools import progress
from stackcheck_tools.analysis import judge, questions
from stackcheck_tools.analysis.program import Program
from stackcheck_tools.analysis.questions import Analyse, Answer, Because, Question, Search, T, Trial
from stackcheck_tools.firmware.firmware import Firmware
from stackcheck_tools.spec.lines import Lines

MOST_KEPT = 1_000_000  # letters of an answer


class Dialogue:
    """Answers about one firmware, which are kept unless they are long; files are made in a folder. Each text of lines has a file of its own,
    which is never written anew, so that a program keeps its lines."""

    def __init__(self, firmware: Firmware, folder: str) -> None:
        self.firmware, self.folder = firmware, folder
        self.judge = judge.checked()
        self.answers: Dict[str, Answer] = {}

    def put(self, name: str, text: str) -> str:
        """Writes a file, and returns its path."""
        path = os.path.join(self.folder, name)
        with open(path, "w", encoding="ascii", newline="\n") as file:
            file.write(text)
        return path

    def program(self, lines: Lines) -> Program:
        """The program under some lines."""
        text = lines.text()
        path = self.put(hashlib.sha256(text.encode()).hexdigest()[:24], text) if text else None
        return Program(self.firmware.image, self.firmware.device.name, path)

    def words(self, question: Question) -> Tuple[str, ...]:
        """The words of the command that answers a question, whose file the next one's takes."""
        if isinstance(question, Analyse):
            return ("analyse",)
        if isinstance(question, Trial):
            return (question.run.command, self.put(question.run.command, question.run.text), *question.run.options)
        path = self.put("asked", question.certificate)
        return ("attain", path) if isinstance(question, questions.Attain) else ("premises", path, "--why")

    def said(self, question: Question) -> Tuple[int, str]:
        """Status and text of the command that answers a question."""
        if isinstance(question, Trial) and question.number >= 0:
            progress.at(f"simulated run {question.number + 1}")
        return self.program(question.lines).call(*self.words(question))

    def answer(self, question: Question) -> Answer:
        """What the program says to a question."""
        name = questions.key(question)
        if name in self.answers:
            return self.answers[name]
        status, text = self.said(question)
        found = questions.answer_of(question, status, text)
        if len(text) < MOST_KEPT:
            self.answers[name] = found
        return found

    def run(self, search: Search[T], steps: Optional[List[Because]] = None) -> T:
        """What a search comes to; its steps are put behind those of a list."""
        return questions.run(search, self.answer, steps)
