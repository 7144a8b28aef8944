"""The lines of an assumption file by site and kind, and the line of a spec that says the same by names."""

from __future__ import annotations

from dataclasses import dataclass, field, replace
from typing import Dict, FrozenSet, Iterable, List, Mapping, Optional, Set, Tuple

from stackcheck_tools.firmware import opcodes
from stackcheck_tools.firmware.devices import Device
from stackcheck_tools.firmware.elf import Elf, Symbol
from stackcheck_tools.firmware.names import SpecFault, function, shown
from stackcheck_tools.spec import recursion
from stackcheck_tools.spec.sites import SITES, STORES
from stackcheck_tools.spec.spec import KINDS, MASKS, MOST_ITEMS, NOWHERE, PAIRS, Spec, assumption_line, words_of


Key = Tuple[int, int]  # a site, and the number of a kind


def read_items(kind: str, words: List[str]) -> Tuple[int, FrozenSet[int]]:
    """The site and the items of a line of an assumption file, by the words behind its kind."""
    site, *items = [int(it, 10 if at and kind == recursion.KIND else 16) for at, it in enumerate(words)] or [NOWHERE]
    return site, frozenset(items)


@dataclass(frozen=True)
class Lines:
    """Lines with their items, which never change: what is added or dropped makes other lines. Those that are given stay as they are: what
    is added later stands at other sites or is of other kinds."""

    device: Device
    items: Mapping[Key, FrozenSet[int]] = field(default_factory=dict)
    given: FrozenSet[Key] = frozenset()

    @classmethod
    def read(cls, device: Device, text: str) -> Lines:
        """The lines of an assumption file, all of them given."""
        found: Dict[Key, FrozenSet[int]] = {}
        for line in text.splitlines():
            kind, *words = line.split()
            site, items = read_items(kind, words)
            found[site, KINDS.index(kind)] = items
        return cls(device, found, frozenset(found))

    def all_given(self) -> Lines:
        """The same, as if a spec had all of them."""
        return replace(self, given=frozenset(self.items))

    def none_given(self) -> Lines:
        """The same, as if a spec had none of them."""
        return replace(self, given=frozenset())

    def has(self, site: int, kind: str) -> bool:
        return (site, KINDS.index(kind)) in self.items

    def is_given(self, site: int, kind: str) -> bool:
        return (site, KINDS.index(kind)) in self.given

    def of(self, site: int, kind: str) -> Set[int]:
        """The items of a line, which the caller may change; none where there is no line."""
        return set(self.items.get((site, KINDS.index(kind)), ()))

    def may_add(self, site: int, kind: str, items: Iterable[int] = ()) -> bool:
        """Whether a line may be added or grow by these items: none that was given, and none that would grow too long."""
        return not self.is_given(site, kind) and len(self.of(site, kind) | set(items)) <= MOST_ITEMS

    def add(self, site: int, kind: str, items: Iterable[int] = ()) -> Lines:
        """With a line or its items; the same object where that says nothing new."""
        more = frozenset(items)
        if self.has(site, kind) and more <= self.of(site, kind):
            return self
        return self.put(site, kind, self.of(site, kind) | more)

    def add_each(self, sites: Iterable[int], kind: str) -> Lines:
        """With a line of this kind at each of these sites; the same object where each is there."""
        lines = self
        for site in sites:
            lines = lines.add(site, kind)
        return lines

    def has_pairs(self) -> bool:
        return self.has(NOWHERE, PAIRS)

    def add_pairs(self) -> Lines:
        """With the line `pairs`, at the head of all others."""
        return self.add(NOWHERE, PAIRS)

    def has_masks(self) -> bool:
        return self.has(NOWHERE, MASKS)

    def put(self, site: int, kind: str, items: Iterable[int]) -> Lines:
        """With these items at a site, in place of those that stand there."""
        return replace(self, items={**self.items, (site, KINDS.index(kind)): frozenset(items)})

    def give(self, site: int, kind: str, items: Iterable[int]) -> Lines:
        """With a line that counts as given."""
        return replace(self.put(site, kind, items), given=self.given | {(site, KINDS.index(kind))})

    def drop(self, site: int, kind: str) -> Lines:
        """Without a line."""
        return replace(self, items={key: it for key, it in self.items.items() if key != (site, KINDS.index(kind))})

    def sites(self, kind: str) -> List[int]:
        """The sites of all lines of a kind, in ascending order."""
        return sorted(site for site, number in self.items if KINDS[number] == kind)

    def written(self) -> List[Tuple[int, str]]:
        """Site and kind of each line that wasn't given, in ascending order."""
        return [(site, KINDS[number]) for site, number in sorted(set(self.items) - self.given)]

    def line(self, site: int, kind: str) -> str:
        return assumption_line(self.device, kind, site, self.of(site, kind))

    def text(self) -> str:
        return "".join(self.line(site, KINDS[kind]) + "\n" for site, kind in sorted(self.items))


def is_named(elf: Elf, name: str, symbol: Symbol) -> bool:
    try:
        return function(elf, name).address == symbol.address
    except SpecFault:
        return False


def name_of(elf: Elf, symbol: Symbol) -> Optional[str]:
    """The name by which a spec finds a function; None where it has none of its own."""
    names = (shown(symbol), symbol.name, f"{symbol.file}:{symbol.name}")
    return next((it for it in names if "#" not in it and len(words_of(it)) == 1 and is_named(elf, it, symbol)), None)


def item_of(elf: Elf, kind: str, item: int) -> Optional[str]:
    """A register or a function by its name; None where a function has none of its own, or where no function begins."""
    if kind == "store":
        return elf.chip.register_name(item)
    symbol = elf.symbol_at(2 * item)
    return name_of(elf, symbol) if symbol and symbol.address == 2 * item else None


def spec_line(elf: Elf, device: Device, lines: Lines, site: int, kind: str, names: Optional[str] = None) -> Optional[str]:
    """The line of a spec that makes this line of an assumption file, with the items by these names, else by their own; None where there is
    none."""
    symbol = elf.symbol_at(2 * site)
    if kind == "never":
        text = f"never {device.vectors[device.vector_of(site)]}"
    elif symbol:
        items: List[Optional[str]] = [names] if names else [item_of(elf, kind, it) for it in sorted(lines.of(site, kind))]
        words = [it for it in items if it is not None]
        found = opcodes.sites(elf, symbol, SITES.get(kind, STORES)[0])
        name = name_of(elf, symbol)
        if site not in found or name is None or len(words) < len(items):
            return None
        text = " ".join([kind, name, str(found.index(site) + 1), *words])
    else:
        return None
    try:
        return text if Spec(elf, text, device).text() == lines.line(site, kind) + "\n" else None
    except SpecFault:
        return None
