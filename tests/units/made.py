"""Results that no analysis made, for tests of what is made of them."""

from stackcheck_tools.finding import (
    ERROR,
    NOTE,
    ORDINARY,
    WARNING,
    Added,
    Bound,
    Count,
    Finding,
    Frame,
    Judge,
    Link,
    Location,
    Need,
    Related,
    Result,
    Review,
    Step,
)

LINE = Location("src/a b%.c", 7, "main", 12, "0048")
ELSEWHERE = Location("/usr/share/böse.c", 3, "helper", 0, "0050")
CHAIN = (Link(2, "reset at main+0", LINE), Link(6, "helper at helper+2", ELSEWHERE))
FLAG = Finding("SB201", ERROR, "X_vect is enabled: 100%,\nno handler", (LINE,), (Related("target", "goes here", Location(word="0010")),),
               ("the bound covers only what comes before",), cure="write a handler")
PLACE = Finding("SB301", ERROR, "a call may leave its list", (LINE, Location(word="0049")), subject="main", source="f  ( );",
                record="keeps main:7  # why", kind=ORDINARY)
REVIEWED = Finding("SB305", NOTE, "a write may set IVSEL", (LINE,), subject="main", kind=ORDINARY, reviewed=Review(1, "never there"))
SAFE = Finding("SB321", NOTE, "the bound holds if this store stays inside its object", (ELSEWHERE,), subject="helper", kind="memory-safety")
LIMIT = Finding("SB402", ERROR, "the bound is 8 bytes, and --limit is 2", (ELSEWHERE,),
                tuple(Related("chain", it.text, it.location) for it in CHAIN))
HEAP = Finding("SB501", WARNING, "malloc is linked", (Location(function="malloc"),))
BOUND = Bound(8, "if 1 call below stays within its list", True, 8, 100, 128, (Count("calls", 1), Count("memory safety", 1)))


STEPS = (Step("register pairs are followed", ("pairs",), ()), Step("refused 2 recursion at 0040: taken back", ("free main 1",), ("pairs",)))
JUDGE = Judge("/opt/stackbound", "0.10.0", 64 * "a")


def result(*findings: Finding, bound: bool = True) -> Result:
    """A result with these findings."""
    head = ("stackcheck", "a b.elf"), "0.10.0", JUDGE, "build/a b.elf", "elf", "atmega328p", None, (0x100, 0x17F), None
    lines = (Added("tool", "pairs", "pairs", "pairs", "", False),)
    if not bound:
        return Result(*head, lines, findings)
    return Result(*head, lines, findings, "stackcert 5", BOUND, CHAIN, (Need("reset", 0, 2, 8, False), Need("helper", 6, 6, 6, False)),
                  frames=Frame("reset", 0, 0, "call", (Frame("helper", 2, 8, "call"),)))
