/* A handler is called through a pointer, which the linker's records alone tell. */
#include "apart.h"

static void APART shallow(void) { t++; }

ISR(TIMER0_OVF_vect) { deep(); }

extern void TIMER0_OVF_vect(void);

int main(void)
{
    task f = shallow;
    TCCR0B = 1;
    for (;;) {
        if (frame_of_six() == 7)
            f = (task)TIMER0_OVF_vect;
        f();
    }
}
