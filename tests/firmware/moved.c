/* Moves the interrupt vectors to the boot section. */
#include <avr/io.h>
#include <avr/interrupt.h>
volatile unsigned char ticks;
ISR(TIMER0_OVF_vect) { ticks++; }
int main(void)
{
    MCUCR = 1 << IVCE;
    MCUCR = 1 << IVSEL;
    TIMSK0 = 1 << TOIE0;
    sei();
    for (;;)
        ;
}
