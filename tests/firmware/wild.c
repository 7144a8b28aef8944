/* A handler that lets interrupts in and writes through a pointer, which may enable its own vector again. */
#include <avr/io.h>
#include <avr/interrupt.h>
static uint8_t buffer[16];
static uint8_t *volatile next = buffer;
static volatile uint8_t count;
ISR(TIMER0_OVF_vect)
{
    TIMSK0 = 0;
    sei();
    *next = 1;
    cli();
    TIMSK0 = 1 << TOIE0;
}
ISR(TIMER1_OVF_vect) { count += 3; }
int main(void)
{
    TIMSK0 = 1 << TOIE0;
    TIMSK1 = 1 << TOIE1;
    sei();
    for (;;)
        if (count > 9)
            next = buffer;
}
