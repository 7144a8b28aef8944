"""What a search asks of the program, as values, and what it is told to each.

A search is a generator that yields questions and is sent the answers. So it needs no program: a dialogue answers by `stackbound`, a test by
a table. Each question has the lines under which it is asked, and no look at other lines changes what another one is told. Between questions
a search says why it goes on with other lines, which is answered by nothing."""

from __future__ import annotations

import hashlib
from typing import Callable, Generator, List, NamedTuple, Optional, Tuple, TypeVar, Union

from stackcheck_tools.analysis.program import OK, REFUSED, NoProgram
from stackcheck_tools.analysis.runs import Ran, Run, ran
from stackcheck_tools.spec.lines import Lines

WITNESS = "\nwitness "  # what stands behind it in a certificate is a schedule


class Certificate(NamedTuple):
    """A bound is known under these lines: the text that proves it."""

    text: str


class Refusal(NamedTuple):
    """No bound is known under these lines: the program's one line."""

    text: str


class Places(NamedTuple):
    """What `premises --why` lists of a certificate."""

    lines: Tuple[str, ...]


class Analyse(NamedTuple):
    """Whether there is a bound: Certificate or Refusal."""

    lines: Lines


class Premises(NamedTuple):
    """At which places a certificate's runs may be flagged, and why: Places."""

    lines: Lines
    certificate: str


class Attain(NamedTuple):
    """A schedule as deep as the bound: Certificate, which is the same one if none is found."""

    lines: Lines
    certificate: str


class Trial(NamedTuple):
    """What comes of a run: Ran. `number` is that of a run behind a bound, by which progress is told."""

    lines: Lines
    run: Run
    number: int = -1


class Because(NamedTuple):
    """A step of a search: from these lines to those, and why. A look that found nothing is taken back by a step of its own."""

    before: Lines
    after: Lines
    why: str


Question = Union[Analyse, Premises, Attain, Trial]
Answer = Union[Certificate, Refusal, Places, Ran]
T = TypeVar("T")
Search = Generator[Union[Question, Because], Optional[Answer], T]


def family(certificate: str) -> str:
    """A certificate without its schedule, on which no premise depends."""
    return certificate.partition(WITNESS)[0]


def key(question: Question) -> str:
    """A short text that equal questions have, and no others."""
    if isinstance(question, Analyse):
        more: Tuple[str, ...] = ()
    elif isinstance(question, Premises):
        more = (family(question.certificate),)
    elif isinstance(question, Attain):
        more = (question.certificate,)
    else:
        more = question.run.command, question.run.text, *question.run.options
    parts = "\0".join((question.lines.text(), *more))
    return f"{type(question).__name__.lower()} {hashlib.sha256(parts.encode()).hexdigest()[:24]}"


def answer_of(question: Question, status: int, text: str) -> Answer:
    """What the program's status and text say to a question."""
    if isinstance(question, Trial):
        return ran(status, text)
    if isinstance(question, Analyse) and status == REFUSED:
        return Refusal(text.strip())
    if status != OK:
        raise NoProgram(f"{type(question).__name__.lower()}: status {status}: {text.strip()}")
    return Places(tuple(text.splitlines()[1:])) if isinstance(question, Premises) else Certificate(text)


def because(before: Lines, after: Lines, why: str) -> Search[None]:
    """Says why the search goes on with other lines; nothing where they are no others."""
    if before.items != after.items:
        yield Because(before, after, why)


def analyse(lines: Lines) -> Search[Union[Certificate, Refusal]]:
    answer = yield Analyse(lines)
    assert isinstance(answer, (Certificate, Refusal))
    return answer


def premises(lines: Lines, certificate: str) -> Search[List[str]]:
    answer = yield Premises(lines, certificate)
    assert isinstance(answer, Places)
    return list(answer.lines)


def attain(lines: Lines, certificate: str) -> Search[Certificate]:
    answer = yield Attain(lines, certificate)
    assert isinstance(answer, Certificate)
    return answer


def trial(lines: Lines, run: Run, number: int = -1) -> Search[Ran]:
    answer = yield Trial(lines, run, number)
    assert isinstance(answer, Ran)
    return answer


def run(search: Search[T], answer: Callable[[Question], Answer], steps: Optional[List[Because]] = None) -> T:
    """What a search comes to where this function answers its questions. Its steps are put behind those of a list."""
    told: Optional[Answer] = None
    try:
        while True:
            said = search.send(told)
            told = None if isinstance(said, Because) else answer(said)
            if steps is not None and isinstance(said, Because):
                steps.append(said)
    except StopIteration as end:
        found: T = end.value
        return found
