"""What one call of `stackcheck` finds, as values. Each renderer is given a `Result` and nothing else, and the exit status is a function of
the findings alone."""

from __future__ import annotations

from dataclasses import dataclass
from typing import Optional, Tuple

ERROR, WARNING, NOTE = "error", "warning", "note"
ORDINARY, MEMORY_SAFETY, SPEC = "ordinary", "memory-safety", "spec"  # kinds of places
# the statuses by the first digit behind `SB`, in the order in which one goes before another
STATUSES = (("0", 3), ("1", 2), ("2", 4), ("4", 1), ("3", 5))


@dataclass(frozen=True)
class Location:
    """A place in the firmware, in a source or in the spec; what is not known is None."""

    file: Optional[str] = None  # relative to the folder of the call, if it lies below
    line: Optional[int] = None
    function: Optional[str] = None  # as a reader knows it: of a handler the vector
    offset: Optional[int] = None  # bytes from the function's first instruction
    word: Optional[str] = None  # the word address, with the digits of the device

    def has_line(self) -> bool:
        return self.file is not None and self.line is not None

    def is_known(self) -> bool:
        return self != Location()


@dataclass(frozen=True)
class Related:
    """A location that explains a finding. `role` is `reason` (leads to it), `target` (where a transfer goes), `chain` (a link of the
    deepest chain) or `spec` (a line that speaks of it)."""

    role: str
    message: str
    location: Location = Location()


@dataclass(frozen=True)
class Review:
    """The line of the spec that settles a place, and its reason."""

    line: Optional[int]
    why: str


@dataclass(frozen=True)
class Finding:
    """An instance of a rule. Its level is `error` if and only if it makes the exit status."""

    rule: str
    level: str
    message: str  # one sentence, without the place, the cause and the cure
    locations: Tuple[Location, ...] = ()  # the first is where to look, all others belong to the same finding
    related: Tuple[Related, ...] = ()
    details: Tuple[str, ...] = ()  # further sentences of this instance
    subject: Optional[str] = None  # what the instructions of a place are called: a function, a loop of the start-up code
    source: Optional[str] = None  # the text of the source line of the first location
    cause: Optional[str] = None  # the name of a row of the table of causes and cures
    why: Optional[str] = None  # that cause in words
    cure: Optional[str] = None
    spec_lines: Tuple[str, ...] = ()  # lines of a spec that would cure or close it
    record: Optional[str] = None  # the line of a spec that would record a review
    reviewed: Optional[Review] = None
    kind: Optional[str] = None  # of a place: ordinary, memory-safety or spec

    def at(self) -> Location:
        return self.locations[0] if self.locations else Location()

    def at_line(self) -> Optional[Location]:
        """The first place with a source line: of the finding itself, else of what leads to it."""
        places = (*self.locations, *(it.location for it in self.related if it.role in ("reason", "chain")))
        return next((it for it in places if it.has_line()), None)

    def asks(self) -> bool:
        """Whether somebody is asked to act."""
        return self.level != NOTE and self.reviewed is None


@dataclass(frozen=True)
class Added:
    """A line of the assumption file. `origin` is `spec` or `tool`; `assumes` says whether the bound rests on it."""

    origin: str
    kind: str
    spec: Optional[str]  # as a line of a spec; None if it has none
    assumption: str
    note: str
    assumes: bool


@dataclass(frozen=True)
class Link:
    """A link of the deepest chain: the bytes that it adds."""

    adds: int
    text: str
    location: Location


@dataclass(frozen=True)
class Need:
    """What a function takes of the stack at most: its own frame, with its calls, and with interrupts too."""

    name: str
    own: int
    calls: int
    interrupts: int
    handler: bool


@dataclass(frozen=True)
class Nesting:
    """A line `recursion` of the spec, or one that has as many activations as simulated runs: the depth at which its deepest activation
    begins, and what each further one takes (None if it is not known)."""

    function: str
    activations: int
    depth: int
    step: Optional[int]
    by_runs: bool = False


@dataclass(frozen=True)
class Without:
    """The bound if a vector is never entered; None if there is none."""

    name: str
    without: Optional[int]


@dataclass(frozen=True)
class Change:
    """The need of a function before and now; None if it is not there."""

    name: str
    before: Optional[int]
    now: Optional[int]

    def grown(self) -> int:
        return (self.now or 0) - (self.before or 0)


@dataclass(frozen=True)
class Since:
    """What changed since the build whose file `--json` wrote, the greatest growth first."""

    file: str
    bound: int
    changes: Tuple[Change, ...]


@dataclass(frozen=True)
class Step:
    """A step of the search of lines: why, and which lines it added and took back. A line whose items changed is taken back and added."""

    why: str
    added: Tuple[str, ...]
    dropped: Tuple[str, ...]


@dataclass(frozen=True)
class Edge:
    """A line of the call graph."""

    caller: str
    called: str
    interrupt: bool


@dataclass(frozen=True)
class Frame:
    """A box of the flame graph: the bytes at which it begins and at which its own frame ends, what it is (`call`, `interrupt` or `more`),
    and the boxes that it enters."""

    name: str
    begin: int
    end: int
    kind: str
    children: Tuple[Frame, ...] = ()


@dataclass(frozen=True)
class Count:
    """How many instructions are places of a kind."""

    kind: str
    count: int


@dataclass(frozen=True)
class Bound:
    """`holds` says for which runs; `attained` whether a run as deep is known; `seen` is the depth of the deepest run known."""

    bytes: int
    holds: str
    attained: bool
    seen: Optional[int]
    room: int
    sram: int
    places: Tuple[Count, ...] = ()

    def margin(self) -> int:
        return self.room - self.bytes


@dataclass(frozen=True)
class Judge:
    """The program that accepted or refused: the path of its file, what it says of its version, and the SHA-256 of its bytes."""

    path: str
    version: str
    sha256: str


@dataclass(frozen=True)
class Result:
    """One call: what was analysed and what was found. Without a bound all that follows `findings` is empty, but for `search`."""

    command: Tuple[str, ...]
    version: str
    judge: Judge
    firmware: str
    format: str
    device: str
    linked_for: Optional[str]
    memory: Tuple[int, int]  # first and last address of SRAM
    spec: Optional[str]
    lines: Tuple[Added, ...]
    findings: Tuple[Finding, ...]
    certificate: Optional[str] = None  # its first line
    bound: Optional[Bound] = None
    chain: Tuple[Link, ...] = ()
    needs: Tuple[Need, ...] = ()
    recursions: Tuple[Nesting, ...] = ()
    interrupts: Optional[Tuple[Without, ...]] = None
    since: Optional[Since] = None
    search: Optional[Tuple[Step, ...]] = None
    calls: Tuple[Edge, ...] = ()
    frames: Optional[Frame] = None

    def status(self) -> int:
        """The exit status: that of the worst group which has an error."""
        failing = {it.rule[2] for it in self.findings if it.level == ERROR}
        return next((status for group, status in STATUSES if group in failing), 0)

    def of_level(self, level: str) -> Tuple[Finding, ...]:
        return tuple(it for it in self.findings if it.level == level)


class Fault(Exception):
    """What ends a call with status 3: a rule of group 0, what is wrong, and where."""

    rule = "SB009"

    def __init__(self, message: str, rule: Optional[str] = None, location: Location = Location()) -> None:
        super().__init__(message)
        self.rule, self.location = rule or type(self).rule, location
