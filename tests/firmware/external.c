/* The register that enables external interrupts on old chips also moves the vectors. */
#include <avr/io.h>
#include <avr/interrupt.h>
volatile uint8_t edges;
ISR(INT0_vect) { edges++; }
int main(void)
{
    GICR |= 1 << INT0;
    sei();
    while (edges < 100)
        ;
    GICR &= ~(1 << INT0);
    GICR = 1 << IVCE;
    GICR = 1 << IVSEL;
    for (;;)
        ;
}
