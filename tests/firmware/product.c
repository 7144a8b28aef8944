/* An instruction of other devices, which the assembler refuses by its name. */
#include <avr/io.h>
int main(void)
{
    for (;;) {
        uint8_t a = PINB;
        asm volatile (".word 0x9F88\n\tmov %0, r0\n\tclr r1" : "+r" (a) :: "r0");
        PORTB = a;
    }
}
