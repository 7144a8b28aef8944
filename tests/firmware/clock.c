/* A clock on five chips: a timer counts seconds, a pin sets the minutes and lets others in meanwhile, and a serial interface takes digits. */
#include <avr/io.h>
#include <avr/interrupt.h>
#include <avr/sleep.h>
#if defined __AVR_ATmega8__ || defined __AVR_ATtiny88__
#define TICK_vect TIMER0_OVF_vect
#define SENT_vect SPI_STC_vect
#define SENT_MASK SPCR
#define SENT (_BV(SPIE) | _BV(SPE))
#define DATA SPDR
#else
#define TICK_vect TIM0_OVF_vect
#define SENT_MASK USICR
#define SENT (_BV(USIOIE) | _BV(USIWM0))
#define DATA USIDR
#endif
#if defined __AVR_ATmega8__
#define EDGE_vect INT0_vect
#define EDGE_MASK GICR
#define EDGE _BV(INT0)
#define TIMSK0 TIMSK
#elif defined __AVR_ATtiny88__
#define EDGE_vect PCINT0_vect
#define EDGE_MASK PCICR
#define EDGE _BV(PCIE0)
#else
#define EDGE_vect PCINT0_vect
#define EDGE_MASK GIMSK
#if defined __AVR_ATtiny85__
#define EDGE _BV(PCIE)
#else
#define EDGE _BV(PCIE0)
#endif
#if defined __AVR_ATtiny1634__
#define SENT_vect USI_OVERFLOW_vect
#else
#define SENT_vect USI_OVF_vect
#endif
#ifndef TIMSK0
#define TIMSK0 TIMSK
#endif
#endif
static volatile uint8_t ticks, seconds, minutes, edges, left;
static uint8_t digits[4];
ISR(TICK_vect)
{
    if (++ticks == 61) {
        ticks = 0;
        if (++seconds == 60) {
            seconds = 0;
            minutes++;
        }
    }
}
ISR(SENT_vect)
{
    if (left)
        DATA = digits[--left & 3];
    else
        SENT_MASK = 0;
}
__attribute__((noinline)) static void settle(uint8_t count)
{
    for (uint8_t from = ticks; (uint8_t)(ticks - from) < count;)
        if (!(PINB & 1))
            edges++;
}
ISR(EDGE_vect)
{
    EDGE_MASK = 0;
    sei();
    settle(2);
    minutes++;
    cli();
    EDGE_MASK = EDGE;
}
__attribute__((noinline)) static void put_two(uint8_t number, uint8_t at)
{
    digits[at & 3] = number % 10;
    digits[(at + 1) & 3] = number / 10;
}
__attribute__((noinline)) static void send(void)
{
    put_two(seconds, 0);
    put_two(minutes, 2);
    left = 4;
    SENT_MASK = SENT;
}
int main(void)
{
    TIMSK0 = _BV(TOIE0);
    EDGE_MASK = EDGE;
    sei();
    for (uint8_t shown = 0;;) {
        if (shown != seconds) {
            shown = seconds;
            send();
        }
        sleep_cpu();
    }
}
