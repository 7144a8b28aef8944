/* A blinker on bit 5 of port B, with no data and no interrupt. */
#include <avr/io.h>

static void wait(unsigned int turns)
{
    while (turns--)
        __asm__ volatile("nop");
}

int main(void)
{
    DDRB |= 1 << 5;
    for (;;) {
        PORTB ^= 1 << 5;
        wait(50000);
    }
}
