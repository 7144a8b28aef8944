"""The kinds of instructions, and the table of docs/PROOF.md that says how often each simulator agreed on them."""
import typing

from assembler import name_of


class Group(typing.NamedTuple):
    names: "tuple[str, ...]"
    tried: str  # over what


GROUPS = [Group(tuple(names.split()), tried) for names, tried in (
    ("add adc sub sbc cp cpc and or eor mov", "all 65,536 operands; 2 to 4 bytes of flags"),
    ("subi sbci cpi andi ori ldi", "the same"),
    ("mul muls mulsu fmul fmuls fmulsu", "the same"),
    ("com neg swap inc dec asr lsr ror", "all bytes, all flags"),
    ("adiw sbiw", "each number, 1,024 to 3,072 words"),
    ("bst bld bset bclr", "each bit, all flags"),
    ("movw nop", "mixtures"),
    ("cpse sbrc sbrs sbic sbis", "all operands or bits; over one word and two"),
    ("sbi cbi", "mixtures"),
    ("brbs brbc rjmp jmp ijmp eijmp", "each flag; mixtures"),
    ("rcall call icall eicall ret reti", "return addresses of two bytes and three, read and pushed"),
    ("push pop", "mixtures"),
    ("ld_x ld_x+ ld_-x ld_y+ ld_-y ldd_y ld_z+ ld_-z ldd_z lds", "registers, SREG, stack pointer, SRAM; past FFFF"),
    ("st_x st_x+ st_-x st_y+ st_-y std_y st_z+ st_-z std_z sts", "the same"),
    ("in out", "SREG, stack pointer, RAMPZ, EIND"),
    ("lpm lpm_z lpm_z+ elpm elpm_z elpm_z+", "each bank, and from one into the next"))]
Counts = typing.Dict[str, int]  # executions by name of the instruction


def by_name(words: "dict[int, int]") -> Counts:
    """Executions by name, from those by first word."""
    counts: Counts = {}
    for word, count in words.items():
        counts[name_of(word)] = counts.get(name_of(word), 0) + count
    return counts


def add_to(counts: Counts, further: Counts) -> None:
    for name, count in further.items():
        counts[name] = counts.get(name, 0) + count


def shown(names: "typing.Sequence[str]") -> str:
    """The names in back quotes; the modes of a load or a store are one name."""
    return " ".join(f"`{name}`" for name in dict.fromkeys(name.split("_")[0] for name in names))


def table(counts: "dict[str, Counts]") -> str:
    """A row for each group: executions under each simulator whose digests agreed."""
    titles = ["Instructions", "Over", *counts]
    rows = []
    for group in GROUPS:
        cases = [sum(of.get(name, 0) for name in group.names) for of in counts.values()]
        rows.append([shown(group.names), group.tried, *(f"{number:,}" if number else "-" for number in cases)])
    return f"| {' | '.join(titles)} |\n|{'---|' * len(titles)}\n" + "".join(f"| {' | '.join(row)} |\n" for row in rows)
