"""The words of `stackcheck` as one table: of it are made the parser, `--help`, the manual page and the completions of three shells."""

from __future__ import annotations

import argparse
import difflib
import textwrap
from typing import Callable, Dict, Iterator, List, NamedTuple, NoReturn, Optional, Sequence, Tuple

READ, WRITTEN, COUNT, NAME, CHOICE, FLAG = "read", "written", "count", "name", "choice", "flag"  # what stands behind an option


class Option(NamedTuple):
    """An option, what stands behind it, and the options that may not stand beside it."""

    group: str
    name: str
    metavar: str
    sort: str
    text: str
    without: Tuple[str, ...] = ()

    def key(self) -> str:
        """Its name among the parsed words."""
        return self.name[2:].replace("-", "_")


TOOL = "stackcheck"
COLORS = ("auto", "always", "never")
GROUPS = ("Input", "Limits", "Analysis", "Places", "Output", "Other")
OPTIONS = (
    Option("Input", "--spec", "FILE", READ, "lines about this firmware, by names (stackbound-assume --help lists them)"),
    Option("Input", "--device", "NAME", NAME, "only if the file does not name its device, as Intel HEX never does"),
    Option("Limits", "--limit", "N", COUNT, "fail (status 1) if the bound exceeds N bytes", ("--margin",)),
    Option("Limits", "--margin", "N", COUNT, "fail (status 1) if fewer than N bytes stay free between static data and the stack",
           ("--limit",)),
    Option("Limits", "--diff", "OLD", READ, "show what grew since the build whose --json file is OLD"),
    Option("Limits", "--grow", "N", COUNT, "with --diff: fail (status 1) if the bound grew by more than N bytes"),
    Option("Analysis", "--plain", "", FLAG, "add no lines to the spec"),
    Option("Analysis", "--write-spec", "FILE", WRITTEN, "the spec with the added lines"),
    Option("Analysis", "--trials", "N", COUNT, "number of simulated runs (up to twelve by default, 0 for none)"),
    Option("Analysis", "--no-attain", "", FLAG, "do not search for a run as deep as the bound"),
    Option("Places", "--judged", "", FLAG, "every place needs a `keeps` line, memory-safety places too", ("--accept-places",)),
    Option("Places", "--accept-places", "", FLAG, "no place needs a review", ("--judged",)),
    Option("Output", "--quiet", "", FLAG, "print errors and warnings only, nothing if the status is 0"),
    Option("Output", "--color", "WHEN", CHOICE, "auto (on a terminal, the default), always or never"),
    Option("Output", "--page", "FILE", WRITTEN, "one page of HTML"),
    Option("Output", "--json", "FILE", WRITTEN, "everything as one object (docs/FINDINGS.md)"),
    Option("Output", "--sarif", "FILE", WRITTEN, "findings as SARIF 2.1.0"),
    Option("Output", "--gitlab", "FILE", WRITTEN, "findings as a code quality report of GitLab"),
    Option("Output", "--github", "", FLAG, "print annotations for a GitHub workflow"),
    Option("Output", "--csv", "FILE", WRITTEN, "stack needs of each function as a table"),
    Option("Output", "--dot", "FILE", WRITTEN, "the call graph for Graphviz"),
    Option("Output", "--interrupts", "", FLAG, "print the bound without each interrupt"),
    Option("Output", "--explain-search", "", FLAG, "print why each line was added or taken back"),
    Option("Output", "--cert", "FILE", WRITTEN, "the certificate, for stackbound check"),
    Option("Output", "--schedule", "FILE", WRITTEN, "the run that is as deep as the bound"),
    Option("Other", "--cures", "", FLAG, "print the table of causes and cures"),
    Option("Other", "--help", "", FLAG, "print this"),
    Option("Other", "--version", "", FLAG, "print the version"),
)
OUTPUTS = tuple(it for it in OPTIONS if it.sort == WRITTEN)
SUMMARY = "Bounds the stack usage of a firmware, as a build step."
USAGE = "usage: stackcheck FIRMWARE [--spec FILE] [--margin N | --limit N] [OPTION ..]"
ABOUT = ("Prints the bound of the stack, interrupts included, or why there is none and how to fix it. FIRMWARE is an ELF file, or one of "
         "Intel HEX. The proved checker of stackbound accepted the certificate of every bound that is printed.")
STATUSES = (
    (0, "the bound is within the limit, and no place is left to review"),
    (1, "the bound exceeds the limit, does not fit, or has grown by more than --grow"),
    (2, "there is no bound; the reason, its cause and a cure are printed"),
    (3, "usage error, or a file, the spec or the program is missing or invalid"),
    (4, "a simulated run was flagged, so the bound may not cover real runs"),
    (5, "a place is left to review"),
)
MORE = (
    "The first line is an error, or the bound with the runs for which it holds. A place is an instruction at which the analysis cannot "
    "rule out a flagged step. At an ordinary place a correct program may be flagged: review it, and record that with a `keeps` line. A "
    "store or call through a number that the program makes to a pointer is one, as *(uint8_t *)received = 1. At a memory-safety place "
    "only a program with undefined behaviour is flagged: a store that leaves the object its pointer was made from, or a call through a "
    "pointer that enters no function whose address is taken. With the line `masks`, such a store may still enable an interrupt without a "
    "handler; the bound says so. \"None made from a number\": a number that stands where pointers stand, as `next` of a list does, is not used "
    "as one, as by a monitor that pokes or a table of services at a fixed address (docs/FORMATS.md, \"What is not seen\").",
    "stackcheck adds the lines that the spec lacks, and prints each: as `assumed:` if the bound rests on it, else as `added:`. A call "
    "through a pointer gets all functions whose address is taken, by the linker's records (-Wl,--emit-relocs) or by a search, which misses "
    "a handler that is called through a pointer. If this gives no bound, the call gets fewer, and is an ordinary place.",
    "`seen` is the depth of the deepest run known, `attained` says that it is the bound.",
)
SEE = "More: docs/BUILDS.md, docs/FINDINGS.md, docs/TROUBLESHOOTING.md"
WIDTH, LEFT = 80, 22


def option_lines(it: Option) -> List[str]:
    """An option with its text, folded behind it."""
    start, left = f"  {it.name} {it.metavar}".rstrip(), " " * LEFT
    body = textwrap.wrap(it.text, WIDTH, initial_indent=left, subsequent_indent=left, break_long_words=False, break_on_hyphens=False)
    if len(start) >= LEFT - 1:
        return [start, *body]
    return [start.ljust(LEFT) + body[0][LEFT:], *body[1:]]


def text() -> str:
    """What `--help` prints."""
    lines = [SUMMARY, "", USAGE, "       stackcheck --cures | --help | --version", "", *textwrap.wrap(ABOUT, WIDTH)]
    for group in GROUPS:
        lines += ["", f"{group}:"]
        lines += [line for it in OPTIONS if it.group == group for line in option_lines(it)]
    lines += ["", "One FILE may be -, which is printed in place of the text.", "", "Exit status:"]
    lines += [f"  {number}  {what}" for number, what in STATUSES]
    for paragraph in MORE:
        lines += ["", *textwrap.wrap(paragraph, WIDTH, break_long_words=False, break_on_hyphens=False)]
    return "\n".join([*lines, "", SEE])


def count(word: str) -> int:
    """A number of bytes."""
    if not (word.isascii() and word.isdecimal()):
        raise argparse.ArgumentTypeError(f"expected a number of bytes, not {word!r}")
    return int(word)


class Parser(argparse.ArgumentParser):
    """A usage error is what `refuse` makes of it."""

    def __init__(self, refuse: Callable[[str], NoReturn]) -> None:
        super().__init__(TOOL, add_help=False, allow_abbrev=False)
        self.refuse = refuse

    def error(self, message: str) -> NoReturn:
        self.refuse(message[:1].lower() + message[1:])


def unknown(words: Sequence[str]) -> Optional[str]:
    """The first word that looks like an option and is none, with the nearest one."""
    known = [it.name for it in OPTIONS]
    for word in words:
        name = word.partition("=")[0]
        if name.startswith("-") and not name[1:].isdecimal() and name not in ("-", "--", "-h", *known):
            near = difflib.get_close_matches(name, known, 1)
            return f"unknown option {name}" + (f": did you mean {near[0]}?" if near else "")
    return None


def parser(refuse: Callable[[str], NoReturn]) -> Parser:
    found = Parser(refuse)
    found.add_argument("firmware", metavar="FIRMWARE", nargs="?")
    pairs: Dict[Tuple[str, ...], argparse._MutuallyExclusiveGroup] = {}
    for it in OPTIONS:
        if it.group == "Other":
            continue
        key = tuple(sorted((it.name, *it.without)))
        to = pairs.setdefault(key, found.add_mutually_exclusive_group()) if it.without else found
        if it.sort == FLAG:
            to.add_argument(it.name, action="store_true")
        elif it.sort == CHOICE:
            to.add_argument(it.name, metavar=it.metavar, choices=COLORS, default=COLORS[0])
        else:
            to.add_argument(it.name, metavar=it.metavar, type=count if it.sort == COUNT else str)
    return found


def bash(devices: Sequence[str]) -> str:
    """The completion of bash."""
    flags = " ".join(it.name for it in OPTIONS)
    files = "|".join(it.name for it in OPTIONS if it.sort in (READ, WRITTEN))
    counts = "|".join(it.name for it in OPTIONS if it.sort == COUNT)
    return f"""# bash completion of stackcheck; made from its options
_stackcheck() {{
    local current=${{COMP_WORDS[COMP_CWORD]}} before=${{COMP_WORDS[COMP_CWORD-1]}}
    COMPREPLY=()
    case $before in
        --device) mapfile -t COMPREPLY < <(compgen -W "{' '.join(devices)}" -- "$current"); return ;;
        --color) mapfile -t COMPREPLY < <(compgen -W "{' '.join(COLORS)}" -- "$current"); return ;;
        {counts}) return ;;
        {files}) compopt -o filenames 2>/dev/null; mapfile -t COMPREPLY < <(compgen -f -- "$current"); return ;;
    esac
    case $current in
        -*) mapfile -t COMPREPLY < <(compgen -W "{flags}" -- "$current") ;;
        *) compopt -o filenames 2>/dev/null
           mapfile -t COMPREPLY < <(compgen -d -- "$current"; compgen -f -X '!*.@(elf|hex)' -- "$current") ;;
    esac
}}
shopt -s extglob
complete -F _stackcheck stackcheck
"""


def in_single_quotes(word: str) -> str:
    return word.replace("'", "'\\''")


def zsh_option(it: Option, devices: Sequence[str]) -> str:
    told = in_single_quotes(it.text).replace("[", "\\[").replace("]", "\\]").replace(":", "\\:")
    action = {READ: f":{it.metavar}:_files", WRITTEN: f":{it.metavar}:_files", COUNT: ":bytes:", NAME: f":device:({' '.join(devices)})",
              CHOICE: f":when:({' '.join(COLORS)})", FLAG: ""}[it.sort]
    without = f"({' '.join((it.name, *it.without))})" if it.without else ""
    return f"    '{without}{it.name}[{told}]{action}'"


def zsh(devices: Sequence[str]) -> str:
    """The completion of zsh."""
    rows = [*(zsh_option(it, devices) for it in OPTIONS), "    '1:firmware:_files -g \"*.(elf|hex)\"'"]
    return "#compdef stackcheck\n# zsh completion of stackcheck; made from its options\n_arguments \\\n" + " \\\n".join(rows) + "\n"


def fish_options(devices: Sequence[str]) -> Iterator[str]:
    for it in OPTIONS:
        more = {READ: " -r", WRITTEN: " -r", COUNT: " -x", NAME: f" -x -a '{' '.join(devices)}'", CHOICE: f" -x -a '{' '.join(COLORS)}'",
                FLAG: ""}[it.sort]
        told = it.text.replace("\\", "\\\\").replace("'", "\\'")
        yield f"complete -c stackcheck -l {it.name[2:]}{more} -d '{told}'"


def fish(devices: Sequence[str]) -> str:
    """The completion of fish."""
    return "\n".join(["# fish completion of stackcheck; made from its options", *fish_options(devices), ""])


# where each is installed, below the prefix
COMPLETIONS: Dict[str, Callable[[Sequence[str]], str]] = {
    "share/bash-completion/completions/stackcheck": bash, "share/zsh/site-functions/_stackcheck": zsh,
    "share/fish/vendor_completions.d/stackcheck.fish": fish}
