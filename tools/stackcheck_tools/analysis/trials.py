"""Runs of a firmware on the simulator of `stackbound`, in search of steps that are flagged and of how deep the stack goes."""

from __future__ import annotations

import functools
from typing import FrozenSet, Iterator, List, NamedTuple, Optional, Set, Tuple

from stackcheck_tools.analysis import core_registers
from stackcheck_tools.analysis.questions import Search, trial
from stackcheck_tools.analysis.runs import Ran, Run, Stop
from stackcheck_tools.firmware import opcodes
from stackcheck_tools.firmware.candidates import start
from stackcheck_tools.firmware.devices import Device
from stackcheck_tools.firmware.elf import Elf
from stackcheck_tools.spec.lines import Lines

BYTES = (0x00, 0xFF, 0x55, 0xAA, 0x01, 0x20)
LONG = 60_000  # steps of a run of the tool `flagged`
MOST_TAKES = 40
STEPS = (20, 60, 150, 400, 1500, 9000)  # at which a schedule of one take is tried
DEVICE_LINES, MOST_RECEIVED = 32, 64


class Kind(NamedTuple):
    """A trial run behind a bound: how many steps, `timers` (all vectors ask again and again), `bytes` (those that receive bring bytes) or
    `polls` (inputs change without interrupts), the first request, the steps between two, and which byte comes first."""

    steps: int
    what: str
    first: int
    period: int
    turn: int


# Their number is fixed, so that two machines say the same. The first is long enough for start-up code that waits.
KINDS = (
    Kind(3_000_000, "timers", 1000, 9973, 0),
    Kind(400_000, "bytes", 300, 331, 8),
    Kind(400_000, "polls", 0, 61, 8),
    Kind(100_000, "timers", 0, 23, 1),
    Kind(400_000, "bytes", 2000, 1009, 0),
    Kind(400_000, "polls", 0, 997, 0),
    Kind(200_000, "timers", 50, 397, 2),
    Kind(400_000, "bytes", 500, 4001, 24),
    Kind(200_000, "polls", 0, 7, 3),
    Kind(200_000, "timers", 5, 61, 3),
    Kind(400_000, "bytes", 700, 157, 40),
    Kind(400_000, "timers", 2000, 2003, 5),
)


class Scope(NamedTuple):
    """What runs can still tell of a certificate: its bound, whether a run as deep is known, whether a step of a run may be flagged, and
    which vectors with a `never` line a run may take before that (None where nothing tells)."""

    bound: int
    is_attained: bool
    may_flag: bool
    entered: Optional[FrozenSet[int]]

    def is_told(self, deepest: Optional[int]) -> bool:
        """Whether no further run can tell anything, after runs so deep."""
        return not self.may_flag and (self.is_attained or deepest is not None and deepest >= self.bound)


def scope(certificate: str, told: List[str]) -> Scope:
    """The scope of a certificate, by the lines that `premises` prints of it: a run is flagged at its places alone, or where it takes the
    vector of one of its `never` lines."""
    lines = certificate.splitlines()
    bound = next(int(it.split()[1]) for it in lines if it.startswith("bound "))
    entered = frozenset(int(it.split()[1], 16) for it in told if it.startswith("never "))
    return Scope(bound, "witness attained" in lines, bool(told), entered)


def handled(elf: Elf, device: Device) -> List[int]:
    """The vectors that don't lead to the compiler's default."""
    default = {it.address for it in elf.named("__bad_interrupt")}
    return [it for it in device.vectors if (target := opcodes.jump_target(elf, device.vector_word(it))) is not None and target != start(elf)
            and 2 * target not in default]


@functools.lru_cache(maxsize=None)
def told_apart(elf: Elf, device: Device) -> Tuple[int, ...]:
    """The bytes that the firmware tells apart, ascending: those that it compares with, those that name registers of the core whose
    addresses stand in it, and some that any may."""
    found = {0x00, 0xFF, 0x55, 0xAA, 0x01, 0x80, 0x7F, 0xFE} | core_registers.seeds(elf, device)
    for word in range(min(device.words, (elf.flash_end + 1) // 2)):
        opcode = elf.word(word)
        byte = opcode & 15 | opcode >> 4 & 0xF0
        if opcode & 0xF000 == 0x3000:
            found |= {byte, (byte - 1) % 256}
        elif opcode & 0xF000 == 0x5000:
            found.add(byte)
        elif opcode & 0xFC08 == 0xFC00 or opcode & 0xFD00 == 0x9900:
            found |= {1 << (opcode & 7), 0xFF ^ 1 << (opcode & 7)}
    return tuple(sorted(found))


def is_receiver(device: Device, vector: int) -> bool:
    """Whether a vector's interrupt comes from outside, with a byte."""
    return not device.vectors[vector].startswith(("TIM", "WDT", "WATCHDOG"))


class Tried(NamedTuple):
    """What runs behind a bound have shown: the number of the flagged one, or the number of all, its flagged step, and how deep they went
    before one, with the deepest run."""

    number: int
    stop: Optional[Stop] = None
    deepest: Optional[int] = None
    deepest_run: Optional[Run] = None

    def behind(self, number: int, run: Run, ran: Ran) -> Tried:
        """The same after another run."""
        deepest, its = self.deepest, self.deepest_run
        if ran.depth is not None and (deepest is None or ran.depth > deepest):
            deepest, its = ran.depth, run
        return Tried(number, ran.stop, deepest, its)


def simulation(fill: int, lines: List[str], steps: int) -> Run:
    """A run with these timers and receivers."""
    return Run("simulate", "\n".join(["devices 1", f"fill {fill:02X}", *lines[:DEVICE_LINES], "end", ""]), ("--steps", str(steps)))


class Trials(NamedTuple):
    """The trial runs of a firmware: the lines under which they run, the vectors that they take, those of them that no run takes, and the
    bytes that the firmware tells apart."""

    lines: Lines
    vectors: Tuple[int, ...]
    idle: FrozenSet[int]
    bytes: Tuple[int, ...]

    def turned(self, kind: Kind) -> Tuple[int, ...]:
        """The bytes that the firmware tells apart, from another one on in each run."""
        at = kind.turn % len(self.bytes)
        return self.bytes[at:] + self.bytes[:at]

    def polled(self, kind: Kind) -> Run:
        """A schedule without interrupts, in which the inputs are one byte after the other."""
        found, last = [f"{it:02X}" for it in self.turned(kind)], ""
        lines = ["schedule 1", f"fill {found[0]}"]
        counts: List[int] = []
        for number in range(kind.steps // kind.period):
            pair = f"{found[number % len(found)]} {found[(number // 3 + 1) % len(found)]}"
            if pair == last:  # two neighbours differ
                counts[-1] += kind.period
            else:
                lines.append(pair)
                counts.append(kind.period)
            last = pair
        lines[2:] = [f"go {count} {pair}" for count, pair in zip(counts, lines[2:])]
        return Run("run", "\n".join([*lines, "end", ""]))

    def asked(self, kind: Kind) -> Run:
        """A run with timers and receivers: all vectors as timers, or those whose interrupt brings a byte as receivers."""
        found, lines = self.turned(kind), []
        received = " ".join(f"{found[n % len(found)]:02X}" for n in range(MOST_RECEIVED))
        for n, vector in enumerate(self.vectors):
            first, period = kind.first + 7 * n, kind.period + 10 * n
            if vector in self.idle:  # its request would only cost time
                continue
            if kind.what == "bytes" and is_receiver(self.lines.device, vector):
                lines.append(f"bytes {vector} {first} {period} {received}")
            else:
                lines.append(f"timer {vector} {first} {period if kind.what == 'timers' else 3 * period}")
        return simulation(found[0], lines, kind.steps)

    def run(self, number: int) -> Run:
        """A run of those behind a bound, by its number."""
        kind = KINDS[number % len(KINDS)]
        return self.polled(kind) if kind.what == "polls" else self.asked(kind)

    def simulated(self, byte: int) -> Iterator[Run]:
        """Yields runs that take each vector whenever it may be taken."""
        for first in (0, 50, 1000):
            yield simulation(byte, [f"timer {vector} {first + 7 * n} {23 + 10 * n}" for n, vector in enumerate(self.vectors)], LONG)


def short(trials: Trials, number: int) -> Search[Ran]:
    """What comes of a run of those behind a bound, by its number."""
    return (yield from trial(trials.lines, trials.run(number), number))


def first_flagged(trials: Trials, scope: Scope, end: Optional[int], tried: Tried) -> Search[Tried]:
    """The first of these runs that is flagged, from the number on at which others have come, as long as they can tell something."""
    last = len(KINDS) if end is None else end
    for number in range(tried.number, last):
        if scope.is_told(tried.deepest):
            break
        tried = tried.behind(number, trials.run(number), (yield from short(trials, number)))
        if tried.stop:
            return tried
    return tried._replace(number=last, stop=None)


def schedule(byte: int, takes: List[Tuple[int, int]]) -> Run:
    """A schedule with these takes (step, vector) and a long run behind them."""
    lines, at = ["schedule 1", f"fill {byte:02X}"], 0
    for step, vector in takes:
        if step > at:
            lines.append(f"go {step - at} {byte:02X} {byte:02X}")
        lines.append(f"take {vector} 0")
        at = step
    return Run("run", "\n".join([*lines, f"go {LONG - at} {byte:02X} {byte:02X}", "end", ""]))


def illegal_take(takes: List[Tuple[int, int]], step: int) -> int:
    """The number of the first take of a schedule that isn't legal, by the step that the program names; -1 where it is none of them."""
    return next((number for number, (at, _) in enumerate(takes) if at + number == step), -1)


def unseen(ran: Ran, seen: Set[Stop]) -> Optional[Stop]:
    """The flagged step of a run, if it is none of those seen."""
    return ran.stop if ran.stop and ran.stop not in seen else None


def replayed(trials: Trials, byte: int, seen: Set[Stop]) -> Search[Optional[Stop]]:
    """The first unseen stop of schedules: none, each vector alone at several steps, and then all that could be taken, one behind the
    other."""
    taken: List[int] = []
    ran = yield from trial(trials.lines, schedule(byte, []))
    if found := unseen(ran, seen):
        return found
    for vector, step in ((vector, step) for vector in trials.vectors for step in STEPS):
        if vector in taken:
            continue
        ran = yield from trial(trials.lines, schedule(byte, [(step, vector)]))
        if ran.illegal is None:
            taken.append(vector)
        if found := unseen(ran, seen):
            return found
    takes = [(400 + 97 * n, taken[n % len(taken)]) for n in range(MOST_TAKES if taken else 0)]
    while takes:
        ran = yield from trial(trials.lines, schedule(byte, takes))
        if ran.illegal is None:
            return unseen(ran, seen)
        illegal = illegal_take(takes, ran.illegal)
        takes = takes[:illegal] + takes[illegal + 1:] if illegal >= 0 else []
    return None


def next_stop(trials: Trials, seen: Set[Stop]) -> Search[Optional[Stop]]:
    """The first stop of the runs of the tool `flagged` that isn't among those seen."""
    for byte in BYTES:
        if found := (yield from replayed(trials, byte, seen)):
            return found
        for run in trials.simulated(byte):
            if found := unseen((yield from trial(trials.lines, run)), seen):
                return found
    return None
