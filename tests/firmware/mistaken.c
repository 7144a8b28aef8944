/* The overflow is enabled in place of the compare match: it has no handler, so each one begins the program anew. */
#include <avr/io.h>
#include <avr/interrupt.h>
volatile unsigned char ticks;
ISR(TIMER1_COMPA_vect) { ticks++; }
int main(void)
{
    TIMSK1 = 1 << TOIE1;
    sei();
    for (;;)
        PORTB = ticks;
}
