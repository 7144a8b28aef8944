#include <avr/io.h>
#include <avr/interrupt.h>
struct uart { volatile uint8_t *control; volatile uint8_t left; };
struct uart uart0 = { &UCSR0B, 0 };
volatile uint8_t last[4];
ISR(USART_UDRE_vect)
{
    UDR0 = uart0.left;
    if (!--uart0.left)
        UCSR0B &= ~(1 << UDRIE0);
}
void send(struct uart *u, uint8_t n)
{
    u->left = n;
    *u->control |= 1 << UDRIE0;
}
int main(void)
{
    sei();
    for (;;)
        send(&uart0, PINB);
}
ISR(BADISR_vect)
{
    for (;;)
        ;
}
