#include <avr/io.h>
#ifdef CURED
#define COUNT 16
#else
#define COUNT count + 1
#endif
__attribute__((noinline)) void fill(volatile uint8_t *v, uint8_t n) { while (n) v[--n] = PINB; }
int main(void)
{
    for (;;) {
        uint8_t count = PINC & 15;
        volatile uint8_t v[COUNT];
        fill(v, count);
        PORTB = v[0];
    }
}
