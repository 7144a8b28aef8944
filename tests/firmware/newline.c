#include <avr/io.h>
#include <stdio.h>
#ifdef CURED
static void write(char byte) { while (!(UCSR0A & _BV(UDRE0))) ; UDR0 = byte; }
static int put(char byte, FILE *stream)
{
    if (byte == '\n')
        write('\r');
    write(byte);
    return 0;
}
#else
static int put(char byte, FILE *stream)
{
    if (byte == '\n')
        put('\r', stream);
    while (!(UCSR0A & _BV(UDRE0))) ;
    UDR0 = byte;
    return 0;
}
#endif
static FILE uart = FDEV_SETUP_STREAM(put, NULL, _FDEV_SETUP_WRITE);
int main(void)
{
    UCSR0B = _BV(TXEN0);
    stdout = &uart;
    for (;;)
        puts("on");
}
