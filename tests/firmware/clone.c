#include <avr/io.h>
#include <avr/interrupt.h>
struct uart { volatile uint8_t *control, *data; volatile uint8_t left; };
struct uart uart0 = { &UCSR0B, &UDR0, 0 };
ISR(USART_UDRE_vect)
{
    UDR0 = 0;
}
static __attribute__((noinline)) void enable(struct uart *u, uint8_t bits)
{
    *u->control |= bits;
}
int main(void)
{
    sei();
    for (;;)
        enable(&uart0, 1 << UDRIE0);
}
