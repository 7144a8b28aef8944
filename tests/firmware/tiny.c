/* A frame; -mtiny-stack makes it by the low byte of the stack pointer alone. */
#include <avr/io.h>
static __attribute__((noinline)) uint8_t sum(volatile uint8_t *of) {
    uint8_t all = 0;
    for (uint8_t i = 0; i < 20; i++)
        all += of[i];
    return all;
}
int main(void) {
    volatile uint8_t seen[20];
    for (;;) {
        for (uint8_t i = 0; i < 20; i++)
            seen[i] = PINB;
        PORTB = sum(seen);
    }
}
