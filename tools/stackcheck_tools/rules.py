"""The rules of which a finding is an instance. An id that goes is never given again; docs/FINDINGS.md has a heading for each."""

from __future__ import annotations

from typing import Dict, NamedTuple

from stackcheck_tools.finding import ERROR, NOTE, WARNING

SEE_CHAIN = "See the deepest chain for what adds up."
NONE_NEEDED = "None needed, unless the program has undefined behaviour."
PREMISE = "None: the line is a premise of the bound."


class Rule(NamedTuple):
    """`level` without options; `message` in one sentence; `help` says what to do."""

    id: str
    name: str
    level: str
    message: str
    help: str


ALL = (
    # 0: input, status 3
    Rule("SB001", "unreadable-file", ERROR, "A file cannot be read or written.", "Check the path and the permissions."),
    Rule("SB002", "not-firmware", ERROR, "The file is not an AVR ELF file or an Intel HEX file, or is damaged.",
         "Give the ELF file that the linker wrote, or a whole HEX file."),
    Rule("SB003", "unknown-device", ERROR, "The device is not named, not supported, or not the one that the file was linked for.",
         "Give `--device NAME`."),
    Rule("SB004", "boot-loader", ERROR, "The program does not begin at address 0.", "Give the program that the boot loader starts."),
    Rule("SB005", "beyond-flash", ERROR, "The file has bytes beyond the flash of the device.",
         "Give the device that it was linked for."),
    Rule("SB006", "spec-line", ERROR, "A line of the spec is invalid, or names nothing in this build.",
         "Correct it; `?` before it drops it in builds without its function."),
    Rule("SB007", "stale-store-line", ERROR, "No store that the line names can write the register.",
         "Correct the site, or delete the line."),
    Rule("SB008", "spec-too-large", ERROR, "The spec exceeds a limit of the assumption file.", "Use fewer lines, or smaller numbers."),
    Rule("SB009", "no-program", ERROR,
         "The program `stackbound` is missing, not built, of another version, or gave an unexpected answer.",
         "Install the package again, or build the checkout."),
    Rule("SB010", "bad-baseline", ERROR, "The file of `--diff` was not written by `--json`, or has no bound.", "Write it anew."),
    # 1: no bound, status 2
    Rule("SB101", "unresolved-jump", ERROR, "An indirect call or jump has no list of targets.", "List its targets with a `jump` line."),
    Rule("SB102", "recursion", ERROR, "A function calls itself, directly or through others.",
         "Rewrite it as a loop, or state the number of activations with a `recursion` line."),
    Rule("SB103", "re-entry", ERROR, "An interrupt handler can be interrupted by its own vector.",
         "Clear its enable bit before interrupts are enabled in it."),
    Rule("SB104", "untracked-stack-pointer", ERROR, "The stack pointer cannot be followed here.",
         "See the cause: a line or an option of the compiler helps in most cases."),
    Rule("SB105", "unsupported-instruction", ERROR, "The word is not an instruction of the device, or one that writes flash.",
         "Check the device; end a function that must not return with an endless loop."),
    Rule("SB106", "stack-exceeds-sram", ERROR, "The stack would exceed SRAM.",
         "Use smaller or static arrays, or fewer handlers that enable interrupts."),
    Rule("SB107", "analysis-too-large", ERROR, "The analysis needs more nodes or cells than a certificate may have.",
         "Compile with -flto; use constants in interrupt masks; shorten lists of calls."),
    Rule("SB108", "unknown-pointer", ERROR, "The pointer of a store that must be known is not.",
         "Use a `free` or a `store` line in place of `prove`."),
    # 2: a simulated run was flagged, status 4
    Rule("SB201", "unhandled-interrupt-fires", ERROR,
         "In a simulated run an interrupt without a handler fires: the program restarts.",
         "Write a handler, or do not enable the interrupt."),
    Rule("SB202", "register-written", ERROR, "In a simulated run a store through a pointer writes a register that no line lists.",
         "Correct the program, or add the `store` line."),
    Rule("SB203", "stack-overwritten", ERROR,
         "In a simulated run a store through a pointer overwrites a byte of the stack that is in use.", "Correct the program."),
    Rule("SB204", "call-leaves-list", ERROR, "In a simulated run a call or jump through a pointer leaves its list.",
         "Correct the program, or the `jump` line."),
    Rule("SB205", "vectors-moved", ERROR, "In a simulated run the program sets IVSEL, which moves the interrupt vectors.",
         "Record with a `keeps` line that no interrupt comes there."),
    Rule("SB206", "recursion-line-too-small", ERROR,
         "In a simulated run a function is active more often than its `recursion` line says.", "Correct the number."),
    # 3: places, status 5 if one is an error
    Rule("SB301", "call-list-incomplete", ERROR, "A call or jump through a pointer may leave its list.",
         "Link with -Wl,--emit-relocs, list the targets with a `jump` line, or review it."),
    Rule("SB302", "store-may-enable", ERROR, "A store may enable an interrupt that the bound does not count.",
         "Add the registers to its `store` line, or review it."),
    Rule("SB303", "unhandled-vector", ERROR, "An interrupt without a handler may be enabled.", "Write a handler, or review it."),
    Rule("SB304", "store-near-core", ERROR, "A store may write SREG, the stack pointer or the register with IVSEL.", "Review it."),
    Rule("SB305", "vectors-may-move", ERROR, "A write may set IVSEL, which moves the interrupt vectors.",
         "Review it: the bound takes the vectors to be at 0."),
    Rule("SB306", "stack-before-sp", ERROR, "The stack is used before SPL is written.",
         "Write SPH and SPL first, or review it with the data sheet."),
    Rule("SB307", "fuses", ERROR, "The file programs a fuse with which the chip starts elsewhere or as another chip.", "Review it."),
    Rule("SB308", "recursion-by-runs", ERROR, "A recursion is counted only as deep as the simulated runs of this call went.",
         "Write the `recursion` line with the greatest number possible."),
    Rule("SB321", "store-in-object", NOTE, "The bound holds if this store stays inside its object.", NONE_NEEDED),
    Rule("SB322", "call-in-complete-list", NOTE, "The bound holds if this call enters a function whose address is taken.", NONE_NEEDED),
    Rule("SB323", "store-enables-no-unhandled", NOTE,
         "The bound holds if this store stays inside its object and enables no interrupt without a handler.",
         "Write a handler for each interrupt that the store may enable, or list its registers with a `store` line."),
    Rule("SB324", "vector-of-unused-unit", NOTE,
         "The bound holds if no store enables an interrupt without a handler whose unit the firmware does not use.", NONE_NEEDED),
    Rule("SB341", "stated-by-spec", NOTE, "The spec states what happens here.", PREMISE),
    Rule("SB342", "limited-recursion", NOTE, "The `recursion` line of the spec limits this call.", PREMISE),
    # 4: limits, status 1
    Rule("SB401", "does-not-fit", ERROR, "The bound exceeds the room between static data and the end of SRAM.", SEE_CHAIN),
    Rule("SB402", "over-limit", ERROR, "The bound exceeds `--limit`.", SEE_CHAIN),
    Rule("SB403", "under-margin", ERROR, "Fewer bytes than `--margin` remain free.", SEE_CHAIN),
    Rule("SB404", "grown", ERROR, "The bound has grown by more than `--grow` permits.", "See which functions grew."),
    # 5: what the bound does not count, and lines without effect
    Rule("SB501", "heap", WARNING, "The heap takes from the same room and is not counted.", "Leave room for it with `--margin`."),
    Rule("SB502", "no-names", NOTE, "An Intel HEX file has no names, source lines or sections.",
         "Give the ELF file from which it was made."),
    Rule("SB504", "idle-keeps-line", WARNING, "A `keeps` line reviews no place.", "Delete the line."),
    Rule("SB505", "masks-cost", NOTE, "The line `masks` makes the analysis several times as large.",
         "Leave it out, or accept the time."),
    Rule("SB506", "lower-bound-by-lists", NOTE, "The bound is lower if fewer functions are called through pointers.",
         "Add these `jump` lines if they are true."),
)
BY_ID: Dict[str, Rule] = {it.id: it for it in ALL}
GROUPS = {"0": "Input", "1": "No bound", "2": "A simulated run was flagged", "3": "Places", "4": "Limits",
          "5": "What the bound does not count, and lines without effect"}
DOCUMENT = "docs/FINDINGS.md"
