#include <avr/io.h>
#include <avr/interrupt.h>
struct uart { volatile uint8_t *control; volatile uint8_t left; };
struct uart uart0 = { &UCSR0B, 0 };
ISR(USART_UDRE_vect)
{
    UCSR0B = 0;
}
static void enable(struct uart *u)
{
    *u->control |= 1 << UDRIE0;
}
static void send(struct uart *u, uint8_t n)
{
    u->left = n;
    enable(u);
}
int main(void)
{
    sei();
    for (;;) {
        send(&uart0, PINB);
        if (PINC)
            send(&uart0, 3);
    }
}
ISR(BADISR_vect)
{
    for (;;)
        ;
}
