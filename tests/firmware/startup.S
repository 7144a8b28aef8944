; Start-up code by hand, which writes SPL before SPH.
#include <avr/io.h>
.global main
main:
    ldi r16, lo8(RAMEND)
    ldi r17, hi8(RAMEND)
#ifndef CURED
    out _SFR_IO_ADDR(SPL), r16
#endif
    out _SFR_IO_ADDR(SPH), r17
#ifdef CURED
    out _SFR_IO_ADDR(SPL), r16
#endif
    rcall work
1:  rjmp 1b
work:
    push r16
    pop r16
    ret
