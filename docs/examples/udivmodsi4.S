; Divides r25:r24:r23:r22 by r21:r20:r19:r18, both without sign: the quotient is in r21:r20:r19:r18, the remainder in r25:r24:r23:r22.
; It stands for the routine of the same name in libgcc where it is linked as an object file: `avr-gcc .. udivmodsi4.S`.
; avr-gcc's code takes r1 for 0. A count in r1 that ends at 0 leaves it so, but an analysis that keeps bits and ranges cannot know it after
; the loop. So this routine ends with `clr r1`. T, r0, r26, r27, r30 and r31 may hold anything afterwards, as with libgcc's routine.

    .text
    .global __udivmodsi4
    .type __udivmodsi4, @function
__udivmodsi4:
    ldi r26, 32
    mov r1, r26                 ; how many bits are left
    clr r26                     ; the remainder so far: r31:r30:r27:r26
    clr r27
    movw r30, r26
.Lbit:
    lsl r22                     ; the dividend's next bit goes into the remainder, and a bit of the quotient comes in its place
    rol r23
    rol r24
    rol r25
    rol r26
    rol r27
    rol r30
    rol r31
    brcs .Lfits                 ; the remainder passes 32 bits, so the divisor fits
    cp r26, r18
    cpc r27, r19
    cpc r30, r20
    cpc r31, r21
    brlo .Lnext
.Lfits:
    sub r26, r18
    sbc r27, r19
    sbc r30, r20
    sbc r31, r21
    inc r22
.Lnext:
    dec r1
    brne .Lbit
    movw r18, r22               ; the quotient
    movw r20, r24
    movw r22, r26               ; the remainder
    movw r24, r30
    clr r1
    ret
    .size __udivmodsi4, . - __udivmodsi4
