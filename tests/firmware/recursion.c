#include <avr/io.h>
volatile uint8_t tree[32];
#ifdef CURED
__attribute__((noinline)) void visit(uint8_t n)
{
    for (; n < 32; n++)
        PORTB = tree[n];
}
#else
__attribute__((noinline)) void visit(uint8_t n)
{
    if (n < 32) {
        visit(2 * n);
        PORTB = tree[n];
        visit(2 * n + 1);
    }
}
#endif
int main(void)
{
    for (;;)
        visit(1);
}
