#include <avr/io.h>
#include <avr/interrupt.h>
volatile uint8_t ticks;
ISR(TIMER0_OVF_vect)
{
#ifdef CURED
    TIMSK0 = 0;
#endif
    sei();
    for (uint8_t i = 0; i < 100; i++) ticks += PINB;
    cli();
#ifdef CURED
    TIMSK0 = 1;
#endif
}
ISR(INT0_vect) { ticks = 0; }
int main(void) { TIMSK0 = 1; EIMSK = 1; sei(); for (;;) PORTB = ticks; }
