/* Parameters on the stack, which the called function writes: by name, without optimisation, and by their address. */
#include <avr/io.h>
static volatile uint8_t shown;
static void __attribute__((noinline)) read(uint8_t *to)
{
    *to = PINC;
}
static uint8_t __attribute__((noinline)) count(uint32_t a, uint32_t b, uint32_t c, uint32_t d, uint32_t e, uint8_t left)
{
    uint8_t sum = a + b + c + d + e;
    while (left--)
        sum += left;
    return sum;
}
static uint8_t __attribute__((noinline)) last(uint32_t a, uint32_t b, uint32_t c, uint32_t d, uint32_t e, uint8_t read_here)
{
    if (PINB == 0x37 && PINC == 0x91)
        read(&read_here);
    return a + b + c + d + e + read_here;
}
int main(void)
{
    for (;;) {
        shown = count(PINB, PINC, PIND, PORTB, PORTC, PIND & 3);
        shown = last(PINB, PINC, PIND, PORTB, PORTC, PIND);
    }
}
