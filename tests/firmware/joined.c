#include <avr/io.h>
volatile uint8_t level;
__attribute__((noinline)) static uint8_t up(uint8_t n) { level += n; return level; }
__attribute__((noinline)) static uint8_t down(uint8_t n) { level -= n; PORTC = n; return n; }
__attribute__((noinline)) static uint8_t clear(uint8_t n) { level = 0; PORTD = n; PORTB = 4; return 1; }
__attribute__((noinline)) uint8_t step(uint8_t which, uint8_t n)
{
    uint8_t (*work)(uint8_t) = up;
    if (which == 1)
        work = down;
    else if (which == 2)
        work = clear;
    return work(n) + n;
}
int main(void)
{
    for (;;)
        PORTB = step(PINB, PINC) + step(PINC, PIND);
}
