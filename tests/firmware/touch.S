; A timer of the ATmega328PB, in assembly: the C library that `make` names has no header of the chip. No known bit enables two of its 45 vectors,
; those of the touch controller. The others lead to `none`, as in avr-libc.
#define SREG 0x3F
#define TIMSK0 0x6E

    .section .vectors, "ax"
    jmp start
    .rept 15
    jmp none
    .endr
    jmp overflow            ; vector 17, TIMER0_OVF
    .rept 28
    jmp none
    .endr

    .text
none:
    jmp 0

    .global overflow
    .type overflow, @function
overflow:
    push r24
    in r24, SREG
    push r24
    pop r24
    out SREG, r24
    pop r24
    reti
    .size overflow, . - overflow

    .global start
    .type start, @function
start:
    clr r1
    ldi r28, 0xFF
    ldi r29, 0x08
    out 0x3E, r29
    out 0x3D, r28
    ldi r24, 1
    sts TIMSK0, r24
#ifdef TOUCHED
    sts 0xF0, r24           ; a register that no header names, as of the touch controller
#endif
    sei
1:  rjmp 1b
    .size start, . - start
