; unsigned both(uint8_t byte): two bytes on the stack, whose address `halves` is given
    .global both
    .type both, @function
both:
    push r1
    push r1
    in r22, 0x3D
    in r23, 0x3E
    subi r22, 0xFF
    sbci r23, 0xFF
    call halves
    pop r24
    pop r25
    ret
    .size both, .-both
