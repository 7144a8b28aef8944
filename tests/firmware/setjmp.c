#include <avr/io.h>
#include <setjmp.h>
jmp_buf start;
int main(void)
{
    PORTC = setjmp(start);
    for (;;)
        if (PINB)
            longjmp(start, 1);
}
