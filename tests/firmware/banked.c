/* A table of registers, one of which is RAMPZ: a correct program may write it, and no bound speaks of far reads after that. */
#include <avr/io.h>

static volatile uint8_t *volatile registers[4] = {&PORTA, &PORTB, &RAMPZ, &PORTC};

int main(void)
{
    for (;;)
        if (PINB == 0x37 && PINC == 0x91 && PIND == 0x1C)
            *registers[PINA & 3] = 1;
}
