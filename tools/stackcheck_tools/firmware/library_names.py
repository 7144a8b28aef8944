"""Names that begin with `__` and are the compiler's own: of its library, of avr-libc, and of their start-up code."""

from __future__ import annotations

import re

MODE = r"(u?[qhsdt][qa]|[qhsd]i|psi|[sd][fc])"  # a type of operands, as the compiler's library calls it
OPERATION = (r"(absv|add|addv|ashl|ashr|bswap|clrsb|clz|cmp|countlsu?|ctz|div|divmod|eq|ffs|fix|fixuns|float|floatun|fmulsu|fract|fractuns|"
             r"ge|gt|le|lshr|lt|"
             r"(ashl|div|mul)helper|mod|mul|mulo|muls|mulu|mulv|ne|neg|negv|parity|popcount|powi|rotl|round|satfract|satfractuns|"
             r"saturate[12]|"
             r"[su]s(abs|add|ashl|div|mul|neg|sub)|sub|subv|ucmp|udiv|udivmod|umod|umul|umulh|umuls|unord|usmul)")
OTHERS = (r"addmask|assert|(bad_interrupt|vectors|vector_default|init|stack|stop_program)$|clear_cache|clr_8|ctype_|(de)?register_frame|"
          r"do_(copy_data|clear_bss|global_)|"
          r"dtoa|ee(rd|wr|upd)_|emutls_|enable_execute|epilogue_restores__|fmuls?u?($|_)|fp_|fpcmp_parts|ftoa_|gcc_|(u|l|ul)?i?toa|"
          r"loop_ffs|make_fp|(un)?pack_f|mask1|movmem|"
          r"mul[hs]i_const_|print_lz|prologue_saves__|ret$|round_\w\d_const|round_x8|roundu?[lh]?[kr]$|sbc_8|[su]s(abs|add|neg|sub)_|"
          r"strlen_P|tablejump|udivmod64|"
          r"udiv_w_sdiv|xload_")
LIBRARY = re.compile(fr"__({OPERATION}{MODE}+(\d\w*|_\w+)?$|{OTHERS})")


def is_library(name: str) -> bool:
    """Whether a function is one of the compiler's own; a handler, whose name begins alike, is none."""
    return LIBRARY.match(name) is not None
