/* A recursion on a chip whose return addresses have three bytes. */
#include <avr/io.h>
volatile uint8_t shown;
static uint8_t __attribute__((noinline)) sum(uint8_t n)
{
    volatile uint8_t kept = n;
    return n ? sum(n - 1) + kept : 1;
}
int main(void)
{
    for (;;)
        shown = sum(PINB & 7);
}
