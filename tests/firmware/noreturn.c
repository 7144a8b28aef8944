#include <avr/io.h>
__attribute__((noinline, noreturn)) void stop(void)
{
    PORTB = 1;
#ifdef CURED
    for (;;)
        ;
#else
    __builtin_unreachable();
#endif
}
asm(".text\n\t.word 0xFFFF"); // a table that stands behind it
int main(void)
{
    for (;;)
        if (PINB)
            stop();
}
