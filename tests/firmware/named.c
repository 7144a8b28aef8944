/* A handler that calls another one by its name. */
#include <avr/interrupt.h>
#include <avr/io.h>
static volatile uint8_t ticks;
static inline void tick(void) {
    ticks++;
    PORTB = ticks;
}
ISR(TIMER0_OVF_vect) { tick(); }
ISR(INT0_vect) {
    PORTC ^= 1;
#ifdef CURED
    tick();
#else
    TIMER0_OVF_vect();
#endif
}
int main(void) {
    TCCR0B = 1;
    TIMSK0 = 1;
    EIMSK = 1;
    sei();
    for (;;)
        ;
}
