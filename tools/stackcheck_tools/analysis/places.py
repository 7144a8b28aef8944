"""The places at which a step may be flagged, as they can be judged: by source lines, library functions, and the loops of the start-up code.

A place is ordinary where a correct program may be flagged at it; one of memory safety where only a store that leaves its object is, or one
with a complete list where only a call is that enters no function whose address is taken; and a given one where the spec itself says what
may happen there. """

from __future__ import annotations

import os
from typing import TYPE_CHECKING, Dict, Iterator, List, Optional, Set, Tuple, Union

from stackcheck_tools.analysis import core_registers, followed, units
from stackcheck_tools.analysis.causes import Cause
from stackcheck_tools.analysis.kinds import CALLS, CORES, GIVEN, MOVES, ORDINARY, SAFETY, STORES, UNUSED, VECTORS, WHOLE
from stackcheck_tools.analysis.node_states import NodeStates
from stackcheck_tools.analysis.permitted import Permitted
from stackcheck_tools.analysis.warnings_of_words import MOVED
from stackcheck_tools.analysis.widening import RECORDS
from stackcheck_tools.dataflow.made_of import Search
from stackcheck_tools.dataflow.numbers import MADE
from stackcheck_tools.firmware import debug_lines, effects, fuses, opcodes, start_up
from stackcheck_tools.firmware.devices import Device
from stackcheck_tools.firmware.effects import Z
from stackcheck_tools.firmware.elf import CODE_END, Elf
from stackcheck_tools.firmware.names import SpecFault, shown
from stackcheck_tools.firmware.paths import line_of, readable
from stackcheck_tools.firmware.records import has_records
from stackcheck_tools.spec import recursion, sites
from stackcheck_tools.spec.spec import START_UP, Keep, Spec

if TYPE_CHECKING:
    from stackcheck_tools.analysis.mask_cost import Answer
    from stackcheck_tools.analysis.outcome import Accepted

    Told = Union[Accepted, Answer]

Key = Union[str, Tuple[str, int, str]]  # path, line and function; or what an entry is called
MOST_WORDS = 4  # word addresses that one entry prints
START = ("__do_clear_bss", "__do_copy_data")
WHY = "say here why it keeps the bound"


class Place:
    """One entry: `title` (what it is), its source (path and line, or None), the text of that line, its words, what may happen there with
    the lines of a spec that close it, and the line that judges it."""

    def __init__(self, device: Device, key: Key, title: str, source: Optional[Tuple[str, int]] = None) -> None:
        self.device, self.key, self.title, self.source, self.cause, self.may_enable = device, key, title, source, Cause(), False
        self.words: List[int] = []
        self.says: Optional[str] = None  # of a vector: what is said of it
        self.kinds: Dict[Union[int, str], str] = {}  # by words, and by the names of fuses
        self.warned: List[str] = []
        self.cure: Optional[str] = None
        self.closers: List[str] = []
        self.keep: Optional[str] = None
        self.judged: Union[Keep, recursion.Recursion, None] = None
        self.path = readable(source[0]) if source else None
        self.code = line_of(self.path, source[1]) if source and self.path else None

    def is_ordinary(self) -> bool:
        """Whether a correct program may be flagged here."""
        return any(it in ORDINARY for it in self.kinds.values())

    def told(self) -> Iterator[str]:
        """Yields what may happen there."""
        if told := str(self.cause):
            yield told
        yield from self.warned


def section_at(elf: Elf, address: int) -> str:
    """The name of the section of data at a data address, with a space behind; nothing where none is told."""
    for name, it in elf.sections.items():
        if elf.sram() <= it[3] <= address + CODE_END < it[3] + it[5]:
            return name + " "
    return ""


def filled(elf: Elf, word: int) -> Optional[str]:
    """What a loop of the start-up code fills: `clears .bss 0106 to 0135`; None where a word isn't the store of such a loop."""
    found = start_up.filled(elf, word)
    return found and f"{'copies' if found.copies else 'clears'} {section_at(elf, found.begin)}{found}"


def entry_of(outcome: Told, word: int, found: Dict[Key, Place]) -> Place:
    """The entry to which a word belongs, which is made with its first one."""
    elf, device, loop = outcome.firmware.elf, outcome.firmware.device, filled(outcome.firmware.elf, word)
    symbol, source = elf.symbol_at(2 * word), debug_lines.of(elf).source(2 * word)
    if loop and not source and (symbol is None or symbol.name in START):
        entry = found.setdefault(START_UP, Place(device, START_UP, "start-up"))
        entry.title += (", " if entry.words else " ") + loop
        return entry
    name = shown(symbol) if symbol else "-"
    if source:
        return found.setdefault((*source, name), Place(device, (*source, name), name, source))
    what = f"library function {name}" if debug_lines.of(elf).has_rows and symbol else f"{name} (no line numbers)"
    return found.setdefault(name, Place(device, name, what))


class Look:
    """What an answer's places are told by: what its certificate permits, and the registers of the core that its stores may be meant for."""

    def __init__(self, outcome: Told) -> None:
        self.outcome, self.elf, self.lines = outcome, outcome.firmware.elf, outcome.own
        states, self.pointers = followed.look(outcome.firmware, outcome.certificate, self.lines)
        self.permitted = Permitted(states, outcome.causes)
        self.known = core_registers.Look(self.permitted, self.pointers)
        self.cores = core_registers.found(self.known, outcome.firmware.device, self.lines)

    def unlisted(self, word: int) -> List[int]:
        """The numbers that the pointer of a call is known to be and that its list doesn't have."""
        return sorted(self.permitted.numbers(word) - self.lines.of(word, "jump"))

    def may_enable(self, word: int) -> bool:
        """Whether a store may write a register that enables interrupts and is protected here."""
        return any(self.permitted.may_write_protected(word, it) for it in sorted(self.elf.chip.enabling))

    def limit(self, word: int) -> Optional[recursion.Recursion]:
        """The line `recursion` that speaks of a call."""
        return recursion.of_call(self.elf, self.lines, self.outcome.recursions, word)

    def is_by_name(self, word: int) -> bool:
        """Whether an instruction writes one address that is known."""
        return not opcodes.is_pointer_store(self.elf.word(word)) or self.permitted.is_fixed(word)

    def kind(self, word: int) -> str:
        """What kind of place a word is, by what may happen there and by whose line speaks of it."""
        cause, lines = self.outcome.causes.get(word, Cause()), self.lines
        is_transfer = cause.transfer and not cause.addresses and not cause.live and not lines.has(word, "jump")
        limit = self.limit(word)
        if is_transfer and limit:
            return recursion.BY_RUNS if limit.is_by_runs() else recursion.PLACE
        if cause.transfer or not cause and word not in self.cores:
            if lines.is_given(word, "jump") and not self.unlisted(word):
                return recursion.BY_RUNS if limit and limit.is_by_runs() else GIVEN
            is_whole = word in self.outcome.lists.whole and not self.unlisted(word)
            if not is_whole or self.pointers.why_called(word, lines.of(word, "jump")):
                return CALLS
            return recursion.BY_RUNS if limit and limit.is_by_runs() else WHOLE
        if cause.moves and self.is_by_name(word):
            return MOVES
        if word in self.cores:
            return CORES
        if not self.may_enable(word):
            return SAFETY
        if lines.is_given(word, "store"):
            return GIVEN
        follows = lines.has_masks() or not self.outcome.firmware.device.is_first()
        is_followed = follows and not lines.has(word, "store")
        return SAFETY if is_followed or not core_registers.is_enabling(self.known, lines, word) else STORES

    def of_number(self, word: int, why: str) -> str:
        """Why a pointer is one that a program makes, with the number of which it is made and where it is read."""
        store = effects.at(self.elf, word)
        pair = store.pair if isinstance(store, effects.Store) else Z
        source = Search(self.pointers.origins).source(word, pair) if why == MADE else None
        if source is None:
            return why
        return f"{why} ({f'{source.name}, ' if source.name else ''}read at {self.outcome.firmware.place(source.word)})"

    def texts(self, word: int, kind: str) -> Iterator[str]:
        """Yields what is told of a word beside what the program says may happen there."""
        cause = self.outcome.causes.get(word, Cause())
        if kind == MOVES or cause.moves and not str(cause):
            yield MOVED
        if kind == CORES:
            for why in dict.fromkeys(self.cores[word].values()):
                names = " ".join(it for it, its in self.cores[word].items() if its == why)
                yield f"may write {names}: its pointer {self.of_number(word, why)}"
        if kind == recursion.BY_RUNS and (limit := self.limit(word)):
            yield limit.by_runs()
        if kind in (CALLS, WHOLE):
            text = self.outcome.firmware.device.word
            yield from (f"its pointer is {text(it)} here, which its list does not have" for it in self.unlisted(word))
            made = self.made(word, kind)
            if made and not self.unlisted(word):
                yield f"its pointer {self.of_number(word, made)}"
            if word in self.outcome.lists.why and not self.unlisted(word):
                yield self.outcome.lists.why[word]

    def made(self, word: int, kind: str) -> Optional[str]:
        """Of what the pointer of an ordinary call is made that its list does not cover; None of another place."""
        is_call = kind == CALLS and opcodes.is_indirect(self.elf.word(word))
        return self.pointers.why_called(word, self.lines.of(word, "jump")) if is_call else None

    def cure(self, word: int, kind: str) -> Optional[str]:
        """What makes the list of a call complete."""
        is_listed = word in self.outcome.lists.why and not self.unlisted(word)
        is_curable = kind == CALLS and is_listed and not self.made(word, kind)
        return RECORDS if is_curable and not has_records(self.elf) else None


def put(look: Look, entry: Place, word: int) -> None:
    """Notes a word and what may happen there in its entry."""
    outcome, kind = look.outcome, look.kind(word)
    cause = outcome.causes.get(word, Cause())
    entry.words.append(word)
    entry.kinds[word] = kind
    entry.may_enable = entry.may_enable or kind == SAFETY and bool(outcome.own.sites("never")) and look.may_enable(word)
    if kind != recursion.BY_RUNS:
        entry.cause.join(cause)
    entry.warned += [it for it in look.texts(word, kind) if it not in entry.warned]
    entry.cure = entry.cure or look.cure(word, kind)
    if word in outcome.closers:
        entry.closers.append(outcome.closers[word])


def entry_of_vector(outcome: Told, states: NodeStates, word: int) -> Place:
    """The entry of a vector that a `never` line names."""
    number = outcome.firmware.device.vector_of(word)
    vector = outcome.firmware.handler(number)
    is_given, device = outcome.own.is_given(word, "never"), outcome.firmware.device
    is_unused = device.is_open(number) and not units.uses_nameless(outcome.firmware.elf, states)
    why = "may be enabled" if not device.is_open(number) else \
        "its unit is not used: no register is written that the header does not name" if is_unused else "no header names its enable bit"
    entry = Place(device, vector, vector)
    entry.says = "is not entered, by a `never` line" if is_given else f"has no handler, and {why}"
    entry.kinds[word] = GIVEN if is_given else UNUSED if is_unused else VECTORS
    return entry


def entry_of_fuses(outcome: Told) -> Iterator[Place]:
    """Yields the one entry of the fuses that the file itself programs, where it does."""
    entry = Place(outcome.firmware.device, fuses.KEPT, "the file's own fuses")
    for it in fuses.programmed(outcome.firmware.elf, outcome.firmware.device.name):
        entry.kinds[it.name], entry.keep = fuses.FUSES, f"keeps {fuses.KEPT}  # {WHY}"
        entry.warned.append(f"its .fuse section programs {it.name}: {it.text}")
    yield from [entry] * bool(entry.kinds)


def entries(outcome: Told) -> List[Place]:
    """The entries of what `premises` lists, in the order of their first words, of stores that may be meant for the core, and of what no
    flag tells."""
    look = Look(outcome)
    found: Dict[Key, Place] = {}
    for line in outcome.premises or ():
        kind, at = line.split()[:2]
        if kind == "never":
            found[line] = entry_of_vector(outcome, look.permitted.states, int(at, 16))
        elif kind == "at":
            put(look, entry_of(outcome, int(at, 16), found), int(at, 16))
        else:
            found[line] = Place(outcome.firmware.device, line, line)
    for word in look.cores:
        if word not in outcome.causes:
            put(look, entry_of(outcome, word, found), word)
    for it in found.values():
        if set(it.kinds.values()) == {recursion.PLACE}:
            it.judged = recursion.of_call(outcome.firmware.elf, outcome.own, outcome.recursions, it.words[0])
    for warned in outcome.warnings:
        entry = entry_of(outcome, warned.word, found)
        entry.words += [] if warned.word in entry.words else [warned.word]
        entry.kinds[warned.word] = warned.kind
        entry.warned.append(warned.text)
    for entry in found.values():
        if by_runs := [word for word, kind in entry.kinds.items() if kind == recursion.BY_RUNS]:
            limit = look.limit(int(by_runs[0]))
            entry.keep = limit.line() if limit else None
        elif entry.is_ordinary():
            entry.keep = keep_line(outcome, entry)
    return [*found.values(), *entry_of_fuses(outcome)]


def words_of(elf: Elf, keep: Keep) -> Set[int]:
    """The words of which a line `keeps` speaks."""
    if keep.line is not None:
        return set(sites.words_of_line(elf, keep.name, keep.line))
    return sites.words_of(elf, keep.name)


def is_of(elf: Elf, keep: Keep, place: Place) -> bool:
    if keep.name in (START_UP, fuses.KEPT):
        return place.key == keep.name
    if not place.words:
        return keep.line is None and str(place.key).partition(" ")[0] == keep.name
    if place.key == START_UP or keep.line is None and keep.name.endswith("_vect"):
        return False
    return set(place.words) <= words_of(elf, keep)


def keep_line(outcome: Told, entry: Place) -> Optional[str]:
    """The line of a spec that judges an entry; None where there is none."""
    elf, symbol = outcome.firmware.elf, outcome.firmware.elf.symbol_at(2 * entry.words[0]) if entry.words else None
    name = shown(symbol) if symbol else ""
    forms = [START_UP] if entry.key == START_UP else [] if entry.words else [f"{str(entry.key).split()[0]} *"]
    if entry.source:
        forms += [f"{name}:{entry.source[1]}", f"{os.path.basename(entry.source[0])}:{entry.source[1]}"]
    for form in [*forms, f"{name} *"]:
        try:
            if is_of(elf, Spec(elf, f"keeps {form} # {WHY}", outcome.firmware.device).keeps[0], entry):
                return f"keeps {form}  # {WHY}"
        except SpecFault:
            continue
    return None


def judge(outcome: Accepted, keeps: List[Keep]) -> List[Keep]:
    """Notes at each entry the line that judges it, and returns the lines that judge none."""
    idle = []
    for keep in keeps:
        judged = [it for it in outcome.entries if recursion.BY_RUNS not in it.kinds.values() and is_of(outcome.firmware.elf, keep, it)]
        for it in judged:
            it.judged = it.judged or keep
        if not judged:
            idle.append(keep)
    return idle


def unjudged(outcome: Accepted, is_strict: bool) -> List[Place]:
    """The entries that have to be looked at and aren't judged: the ordinary ones, or all where it is asked for all."""
    return [it for it in outcome.entries if not it.judged and (is_strict or it.is_ordinary())]
