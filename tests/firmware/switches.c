#include <avr/io.h>
volatile uint8_t mode;
__attribute__((noinline)) uint8_t gain(uint16_t x)
{
    switch (x) {
    case 0: return 3;
    case 1: mode = 4; return 9;
    case 2: mode = 7; return 1;
    case 3: PORTB = 2; return 4;
    case 4: PORTC = 4; return 11;
    case 5: PORTD = 1; return 77;
    case 6: mode = 99; return 12;
    }
    return 0;
}
__attribute__((noinline)) uint8_t offset(uint8_t a, uint16_t x)
{
    volatile uint8_t t[3];
    t[0] = gain(a);
    switch (x) {
    case 0: t[1] = gain(3); break;
    case 1: mode = 4; return 9;
    case 2: t[2] = 7; break;
    case 3: PORTB = gain(t[2]); return 4;
    case 4: PORTC = 4; return t[0];
    case 5: PORTD = 1; return 77;
    case 6: mode = 99; return gain(t[0]);
    }
    return t[2] + t[1] + t[0];
}
int main(void)
{
    for (;;)
        OCR0A = gain(PINB + PINC) + offset(PINB, PINC + PIND);
}
