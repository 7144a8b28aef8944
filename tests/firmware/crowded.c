#include <avr/io.h>
volatile uint8_t history[1900];
__attribute__((noinline)) void fill(volatile uint8_t *v)
{
    for (uint8_t i = 0; i < 200; i++)
        v[i] = PINB;
}
int main(void)
{
    for (;;) {
        volatile uint8_t v[200];
        fill(v);
        history[v[PINC] + 256 * (PIND & 3)] = v[0];
    }
}
