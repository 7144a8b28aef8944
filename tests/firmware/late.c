/* Without optimisation: a display's start-up time first, and then a timer is enabled through its register's address. */
#include <avr/io.h>
#include <avr/interrupt.h>
static volatile unsigned ticks;
static void count(unsigned by) { ticks += by; }
ISR(TIMER0_OVF_vect) { count(1); }
static void wait(unsigned n) { volatile unsigned i; for (i = 0; i < n; i++) ; }
int main(void)
{
    wait(9000);
    TIMSK0 = 1 << TOIE0;
    sei();
    for (;;)
        ;
}
