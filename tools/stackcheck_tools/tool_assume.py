"""The tool `assume`."""

from __future__ import annotations

import sys

from stackcheck_tools.firmware.devices import device_of, named
from stackcheck_tools.firmware.elf import Elf
from stackcheck_tools.firmware.names import SpecFault
from stackcheck_tools.habits import FAULTS, MISUSE, Words, tell
from stackcheck_tools.spec.spec import assumptions

DOCUMENT = """Writes an assumption file from a spec, whose lines name functions and so survive a rebuild.

usage: assume FW SPEC [--device NAME] >A

A spec has these lines, and comments after `#`. N counts sites of a function from 1, by address.

  pairs                         follow 16-bit numbers in register pairs, so that fewer places are left
  masks                         a store through a pointer may write the registers that enable interrupts, and the analysis follows it
  jump FUNCTION N TARGET ..     the N-th `ijmp` or `icall` of FUNCTION goes to these targets:
                                  NAME                a function
                                  @constructors       all constructors of static objects
                                  @taken              all functions whose address is taken
                                  @tables             all words of the `switch` tables that `__tablejump2__` jumps through
                                  @vtable CLASS N     the N-th virtual function of CLASS
  store FUNCTION N REGISTER ..  the N-th store through a pointer of FUNCTION may write these registers (avr-libc's names, r0 to r31, 0x and digits)
  prove FUNCTION N              the analysis has to know the pointer of the N-th store through a pointer of FUNCTION
  free FUNCTION N               treat the store as unresolved even if its address is loaded just before
  never VECTOR                  no interrupt is entered at this vector (avr-libc's name, as USART_RX_vect)
                                  @unhandled          each vector without a handler: avr-libc's default restarts the program
  frame FUNCTION                follow what `add`, `adc`, `sub`, `subi`, `inc` and `dec` of FUNCTION do to the stack pointer's bytes
                                  @frames             wherever a function releases its frame by `add` and `adc`, or moves it by its
                                                      high byte alone
  scratch FUNCTION N ..         the bytes that these pushes of FUNCTION push are scratch space
  recursion FUNCTION N          at most N activations of FUNCTION are active at once: for `stackcheck` alone
  keeps FUNCTION:LINE # WHY     a place was reviewed: for `stackcheck`, and not for this file
  limit N, margin N             as --limit N and --margin N of `stackcheck`, which go before them
  device NAME                   as --device NAME of `stackcheck`

A line that begins with `?` is dropped if its function is not in this build. FUNCTION * means all sites of the function, its clones and its
inlined code; FUNCTION:LINE or FILE:LINE the sites of a source line. A name of C++ is written as in the source: Button::poll(), or poll if it
is unique; a handler as its vector, USART_RX_vect. FILE:NAME is the local symbol of a source file. The device is read from the ELF file; give
--device only if the file does not name one.
Status 0: the file was written; 1: a line matches no site, and is printed; 3: usage error or unreadable file.
"""


def main() -> int:
    parser = Words("assume", DOCUMENT)
    parser.add_argument("firmware")
    parser.add_argument("spec")
    parser.add_argument("--device")
    words = parser.parse_args()
    try:
        elf = Elf(words.firmware)
        is_told = words.device or named(elf.device())
        device = device_of(elf, words.firmware, words.device)[1] if is_told else None
        with open(words.spec, encoding="utf8") as file:
            text = file.read()
        sys.stdout.write(assumptions(elf, text, device))
    except BrokenPipeError:
        raise
    except SpecFault as fault:
        tell("assume", fault, words.spec)
        return 1
    except FAULTS as fault:
        tell("assume", fault)
        return MISUSE
    return 0
