/* The next state's address in SRAM, which a byte of the input gives. */
#include <avr/io.h>
typedef void (*state)(void);
state volatile next;
volatile unsigned char n;
void __attribute__((noinline)) deep(void) { volatile unsigned char room[8]; room[n & 7] = 1; n++; }
int main(void)
{
    for (;;) {
        if (PINB == 0x42)
            next = (state)((unsigned)PINC << 8 | PIND);
        if (PINB == 0x43)
            deep();
        if (next)
            next();
    }
}
