/* GNU C's `goto *`: one label leads to a deep call. */
#include "apart.h"

int main(void)
{
    static void *const table[] = { &&up, &&down, &&deeper };
    volatile uint8_t state = 0;
    for (;;) {
        if (frame_of_six() == 7)
            state = 2;
        goto *table[state];
    up:
        t++;
        continue;
    down:
        t--;
        continue;
    deeper:
        deep();
    }
}
