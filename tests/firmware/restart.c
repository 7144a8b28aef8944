/* Begins anew: by a jump to 0, or by the watchdog. */
#include <avr/interrupt.h>
#include <avr/io.h>
#include <avr/wdt.h>
ISR(TIMER0_OVF_vect) { PORTB ^= 1; }
static __attribute__((noinline)) void restart(void) {
#ifdef CURED
    wdt_enable(WDTO_15MS);
    for (;;)
        ;
#else
    cli();
    __asm__ volatile("jmp 0");
#endif
}
int main(void) {
    TCCR0B = 1;
    TIMSK0 = 1;
    sei();
    for (;;)
        if (PINB & 1)
            restart();
}
