#include <avr/io.h>
#include <avr/interrupt.h>
#include <stdio.h>
volatile uint32_t ticks;
ISR(TIMER0_OVF_vect) { ticks++; }
static int put(char byte, FILE *stream) { while (!(UCSR0A & _BV(UDRE0))) ; UDR0 = byte; return 0; }
static FILE uart = FDEV_SETUP_STREAM(put, NULL, _FDEV_SETUP_WRITE);
int main(void)
{
    UCSR0B = _BV(TXEN0);
    TIMSK0 = _BV(TOIE0);
    stdout = &uart;
    sei();
    for (;;)
        printf("%lu s, %u\n", ticks / (100 + PINB), PINC);
}
