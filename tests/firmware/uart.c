#include <avr/io.h>
#include <avr/interrupt.h>
struct uart { volatile uint8_t *control, *data; volatile uint8_t left; };
struct uart uart0 = { &UCSR0B, &UDR0, 0 };
ISR(USART_UDRE_vect)
{
    *uart0.data = uart0.left;
    if (!--uart0.left)
        *uart0.control &= ~(1 << UDRIE0);
}
void send(struct uart *u, uint8_t n)
{
    u->left = n;
    *u->control |= 1 << UDRIE0;
}
ISR(BADISR_vect)
{
    for (;;)
        ;
}
int main(void)
{
    sei();
    for (;;)
        send(&uart0, PINB);
}
