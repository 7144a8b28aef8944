/* A correct program: a struct of registers at 005D, whose third one is SREG. The handler then lets others in. */
#include "apart.h"

struct core { volatile uint8_t spl, sph, sreg; };

static struct core *core = (struct core *)0x5D;
static uint8_t other[3];
static volatile uint8_t on;

ISR(TIMER1_OVF_vect)
{
    TIMSK1 = 0;
    struct core *c = on == 7 ? *(struct core *volatile *)&core : (struct core *)other;
    c->sreg = 0x80;
    deep();
    cli();
    TIMSK1 = 1;
}

ISR(TIMER0_OVF_vect) { deep(); }

int main(void)
{
    TCCR0B = TCCR1B = 1;
    TIMSK0 = TIMSK1 = 1;
    sei();
    for (;;) {
        uint8_t n = frame_of_six();
        if (n)
            on = n;
    }
}
