#include <avr/io.h>
#include <avr/interrupt.h>
volatile uint8_t ticks;
ISR(TIMER0_OVF_vect) { ticks++; }
uint8_t wait(uint8_t n) { uint8_t from = ticks; while ((uint8_t)(ticks - from) < n) ; return ticks; }
int main(void)
{
    TCCR0B = 3;
    TIMSK0 |= 1 << TOIE0;
    sei();
    for (;;)
        PORTB = wait(PINC);
}
