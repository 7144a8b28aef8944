#include <avr/io.h>
#include <avr/interrupt.h>
volatile uint8_t ticks, tens;
#ifdef CURED
ISR(TIMER0_OVF_vect)
{
    TIMSK0 &= ~(1 << TOIE0);
    sei();
    if (++ticks % 10 == 0)
        tens++;
    cli();
    TIMSK0 |= 1 << TOIE0;
}
#else
ISR(TIMER0_OVF_vect, ISR_NOBLOCK)
{
    if (++ticks % 10 == 0)
        tens++;
}
#endif
ISR(INT0_vect) { PORTD = tens; }
int main(void)
{
    TIMSK0 = 1 << TOIE0;
    EIMSK = 1 << INT0;
    sei();
    for (;;)
        PORTB = ticks;
}
