#include <avr/interrupt.h>
#include <avr/io.h>
volatile uint8_t sum;
__attribute__((noinline)) void work(uint8_t n)
{
    while (n--)
        sum += PINB;
}
ISR(TIMER0_OVF_vect)
{
    TIMSK0 = 1;
    work(3);
    TIMSK0 = 0;
    sei();
    work(100);
    cli();
    TIMSK0 = 3;
}
ISR(TIMER0_COMPA_vect)
{
    sum = 0;
}
int main(void)
{
    TIMSK0 = 3;
    sei();
    for (;;)
        PORTB = sum;
}
