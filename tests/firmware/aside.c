/* Vectors that are moved by name, beside a handler that lets its own vector in and a store through a pointer: no bound reads `masks`. */
#include <avr/interrupt.h>
#include <avr/io.h>
static volatile uint8_t ticks, taken[16];
static volatile uint8_t *volatile at = taken;
EMPTY_INTERRUPT(TIMER0_OVF_vect)
ISR(TIMER1_OVF_vect, ISR_NOBLOCK)
{
    ticks++;
}
int main(void)
{
    at = taken;
    MCUCR = 1 << IVCE;
    MCUCR = 1 << IVSEL;
    TIMSK0 = 1 << TOIE0;
    sei();
    for (;;) {
        *at = PINB;
        MCUCR |= 1 << PUD;
    }
}
