#include <avr/io.h>
volatile uint8_t mode;
uint8_t gain(uint16_t x)
{
    switch (x) {
    case 0: return 3;
    case 1: mode = 4; return 9;
    case 2: mode = 7; return 1;
    case 3: PORTB = 2; return 4;
    case 4: PORTC = 4; return 11;
    case 5: PORTD = 1; return 77;
    case 6: mode = 99; return 12;
    }
    return 0;
}
int main(void) { for (;;) OCR0A = gain(PINB + PINC); }
