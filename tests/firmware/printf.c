#include <avr/io.h>
#include <stdio.h>
static int put(char byte, FILE *stream) { while (!(UCSR0A & _BV(UDRE0))) ; UDR0 = byte; return 0; }
static FILE uart = FDEV_SETUP_STREAM(put, NULL, _FDEV_SETUP_WRITE);
int main(void)
{
    UCSR0B = _BV(TXEN0);
    stdout = &uart;
    for (;;) printf("%u of %s\n", PINB, PINC & 1 ? "one" : "two");
}
