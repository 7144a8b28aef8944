/* A main loop that switches off what isn't needed, beside a store through a pointer: with the line masks each set of enable bits that is left has nodes
   of its own. With DRIVER a driver's pointer to UCSR0B stands in the file. */
#include <avr/io.h>
#include <avr/interrupt.h>
static uint8_t room[16];
static uint8_t *volatile next = room;
volatile uint8_t ticks, edges, results[4];
#ifdef DRIVER
struct port { volatile uint8_t *control, *data; };
struct port port = { &UCSR0B, &UDR0 };
ISR(USART_UDRE_vect) { UDR0 = ticks; }
#endif
static void __attribute__((noinline)) count(void)
{
    results[0] += ticks;
    results[1] ^= results[0];
    results[2] -= results[1];
    ticks++;
}
ISR(TIMER0_OVF_vect) { count(); }
ISR(TIMER1_OVF_vect) { edges--; }
ISR(TIMER2_OVF_vect) { edges++; }
ISR(INT0_vect) { edges = 0; }
ISR(PCINT0_vect) { edges += 2; }
ISR(ADC_vect) { edges -= 2; }
ISR(SPI_STC_vect) { edges = SPDR; }
static void __attribute__((noinline)) save(uint8_t idle)
{
    if (idle & 1)
        TIMSK1 = 0;
    if (idle & 2)
        TIMSK2 = 0;
    if (idle & 4)
        EIMSK = 0;
    if (idle & 8)
        PCICR = 0;
    if (idle & 16)
        ADCSRA = 0;
    if (idle & 32)
        SPCR = 0;
}
int main(void)
{
    TIMSK0 = 1 << TOIE0;
    sei();
    for (;;) {
        *next = ticks;
        next = room + (PINB & 15);
#ifdef DRIVER
        *port.control |= 1 << UDRIE0;
#endif
        save(PIND);
    }
}
