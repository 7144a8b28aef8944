#include <avr/io.h>
__attribute__((noinline)) uint8_t pick(uint8_t *v, uint8_t n) { uint8_t s = 0; for (uint8_t i = 0; i < n; i++) { s += v[i]; PORTB = s; } return s; }
__attribute__((noinline)) uint16_t mix(uint8_t a, uint8_t b, uint8_t c, uint8_t d)
{
    uint8_t local[12];
    for (uint8_t i = 0; i < 12; i++) local[i] = PINB;
    uint16_t s = pick(local, a) + pick(local, b);
    s += pick(local, c); s += pick(local, d); s *= pick(local, a + b); s ^= pick(local, c + d);
    return s;
}
int main(void) { for (;;) PORTC = mix(PINB, PINC, PIND, PINB); }
