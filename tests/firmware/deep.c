#include <avr/io.h>
#ifdef CURED
#define SIZE 1900
#else
#define SIZE 2100
#endif
__attribute__((noinline)) void fill(volatile uint8_t *v) { for (uint16_t i = 0; i < SIZE; i++) v[i] = PINB; }
int main(void)
{
    for (;;) {
        volatile uint8_t v[SIZE];
        fill(v);
        PORTB = v[PINC];
    }
}
