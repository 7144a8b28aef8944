/* A handler of USB that lets interrupts in: several registers enable its vector, so none tells that it is off. */
#include <avr/io.h>
#include <avr/interrupt.h>
volatile uint8_t count;
ISR(USB_COM_vect)
{
    UEIENX = 0;
    sei();
    count++;
    cli();
    UEIENX = 1 << RXOUTE;
}
int main(void)
{
    UEIENX = 1 << RXOUTE;
    sei();
    for (;;)
        ;
}
