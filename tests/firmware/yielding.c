/* A handler clears its own bit and lets others in while it writes through a pointer that comes from memory. */
#include <avr/io.h>
#include <avr/interrupt.h>
struct ring { unsigned char *at, left; };
static unsigned char room[8];
struct ring ring = { room, 8 };
volatile unsigned char ticks;
void __attribute__((noinline)) put(struct ring *r, unsigned char c) { *r->at = c; r->at = room; }
ISR(TIMER0_OVF_vect) { TIMSK0 = 0; sei(); put(&ring, PINB); cli(); TIMSK0 = 1 << TOIE0; }
ISR(TIMER1_OVF_vect) { ticks++; }
int main(void)
{
    TIMSK0 = 1 << TOIE0;
    TIMSK1 = 1 << TOIE1;
    sei();
    for (;;)
        ;
}
