/* Initialised and zeroed data, and a timer interrupt that counts in them. */
#include <avr/interrupt.h>
#include <avr/io.h>

static const unsigned char steps[3] = {1, 3, 9};

volatile unsigned int start = 0x1234;
volatile unsigned char place;
volatile unsigned int history[16];

static void record(unsigned int value)
{
    history[place & 15] = value;
    place++;
}

ISR(TIMER0_OVF_vect)
{
    start += steps[place % 3];
    record(start);
}

int main(void)
{
    TCCR0B = 1 << CS01;
    TIMSK0 = 1 << TOIE0;
    sei();
    for (;;)
        PORTB = history[place & 15];
}
