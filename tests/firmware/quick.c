/* A small quicksort of sixteen bytes, which goes into the smaller part and loops over the greater one. */
#include <avr/io.h>
static uint8_t of[16];
static __attribute__((noinline)) void sort(uint8_t *low, uint8_t *high) {
    while (low < high) {
        uint8_t middle = *high, *to = low;
        for (uint8_t *it = low; it < high; it++)
            if (*it < middle) {
                uint8_t other = *it;
                *it = *to;
                *to++ = other;
            }
        *high = *to;
        *to = middle;
        if (to - low < high - to) {
            sort(low, to - 1);
            low = to + 1;
        } else {
            sort(to + 1, high);
            high = to - 1;
        }
    }
}
int main(void) {
    for (;;) {
        for (uint8_t n = 0; n < 16; n++)
            of[n] = PINB;
        sort(of, of + 15);
        PORTC = of[8];
    }
}
