"""Where a search of lines stands, as values: what is known of the firmware, and what was found so far."""

from __future__ import annotations

from dataclasses import dataclass, field, replace
from typing import TYPE_CHECKING, FrozenSet, List, Mapping, NamedTuple, Optional, Tuple, Union

from stackcheck_tools.analysis import questions, trials
from stackcheck_tools.analysis.questions import Certificate, Refusal, Search
from stackcheck_tools.analysis.runs import Run, Stop
from stackcheck_tools.analysis.trials import DEVICE_LINES, Scope, Trials, handled
from stackcheck_tools.firmware.devices import Device
from stackcheck_tools.firmware.elf import Elf
from stackcheck_tools.firmware.firmware import Firmware
from stackcheck_tools.spec.lines import Lines
from stackcheck_tools.spec.recursion import Recursion

if TYPE_CHECKING:
    from stackcheck_tools.analysis.cycles import Limits


class Facts(NamedTuple):
    """What a search may know without the program: the firmware, how many trial runs are asked for (None: all), and whether runs as deep as
    the bound are sought."""

    firmware: Firmware
    runs: Optional[int] = None
    seeks: bool = True

    @property
    def elf(self) -> Elf:
        return self.firmware.elf

    @property
    def device(self) -> Device:
        return self.firmware.device


@dataclass(frozen=True)
class Lists:
    """What is known of the lists of calls through pointers: at which sites they are complete, why at others they aren't, and the lines
    under which the bound was lower, with that bound."""

    whole: FrozenSet[int] = frozenset()
    why: Mapping[int, str] = field(default_factory=dict)
    narrower: Mapping[int, FrozenSet[int]] = field(default_factory=dict)
    bound: Optional[int] = None

    def told(self, site: int, why: str) -> Lists:
        """The same, with what is said of a site."""
        return replace(self, why={**self.why, site: why})


@dataclass(frozen=True)
class State:
    """The lines so far, with what the program said to them (None: not asked yet), and what was tried, which is never tried again."""

    lines: Lines
    answer: Union[Certificate, Refusal, None] = None
    recursions: Tuple[Recursion, ...] = ()  # of the spec or by runs, with the depths that they came to
    limits: Optional[Limits] = None  # lines `recursion` by simulated runs
    pinned: FrozenSet[Tuple[int, int]] = frozenset()  # sites and targets that a trial run went to
    tried: FrozenSet[Tuple[int, str]] = frozenset()  # lines under which no bound was found
    notes: Tuple[Tuple[int, str], ...] = ()
    lists: Lists = Lists()
    scratched: Mapping[Stop, Optional[int]] = field(default_factory=dict)  # pushes by the writes of live bytes that they admit
    sought: Optional[str] = None  # the certificate behind the last search for a run as deep as the bound
    stop: Optional[Stop] = None  # the flagged step of a trial run that no line admits
    stopped_at: int = 0  # the number of that run
    deepest: Optional[int] = None
    deepest_run: Optional[Run] = None
    told_of_masks: Optional[str] = None  # what the line costs, or why it was left out

    @property
    def certificate(self) -> Optional[str]:
        return self.answer.text if isinstance(self.answer, Certificate) else None

    @property
    def refusal(self) -> Optional[str]:
        return self.answer.text if isinstance(self.answer, Refusal) else None

    def under(self, lines: Lines) -> State:
        """The same under other lines, of which nothing was asked yet; the same object where they are no others."""
        return self if lines is self.lines else replace(self, lines=lines, answer=None)

    def look(self) -> State:
        """Where a look at what another step would do begins."""
        return replace(self, notes=(), scratched={}, sought=None, stop=None, stopped_at=0, deepest=None, deepest_run=None)

    def adopt(self, other: State) -> State:
        """Goes on with what a look has found."""
        return replace(other, scratched=self.scratched, sought=self.sought, stopped_at=self.stopped_at, told_of_masks=self.told_of_masks)


def told(state: State) -> Search[List[str]]:
    """What `premises --why` lists of a certificate."""
    return (yield from questions.premises(state.lines, state.certificate or ""))


def scope(state: State) -> Search[Scope]:
    """What runs can still tell of a certificate."""
    return trials.scope(state.certificate or "", (yield from told(state)))


def trials_of(facts: Facts, lines: Lines, certificate: Scope) -> Trials:
    """Trial runs that take each vector that has a handler, and each that a `never` line of this tool names, as far as a run takes so many.
    One that no known bit enables isn't taken without a handler: that it may come says nothing of the firmware."""
    device, has_handler, vectors = facts.device, handled(facts.elf, facts.device), []
    for vector in device.vectors:
        word = device.vector_word(vector)
        is_tried = lines.has(word, "never") and not device.is_open(vector)
        if not lines.is_given(word, "never") and (vector in has_handler or is_tried):
            vectors.append(vector)
    vectors = sorted(sorted(vectors, key=lambda it: it not in has_handler)[:DEVICE_LINES])
    idle = frozenset(it for it in vectors if certificate.entered is not None and lines.has(device.vector_word(it), "never")
                     and device.vector_word(it) not in certificate.entered)
    return Trials(lines, tuple(vectors), idle, trials.told_apart(facts.elf, device))
