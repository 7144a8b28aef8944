/* Takes memory from the heap, which grows towards the stack. */
#include <stdlib.h>
#include <avr/io.h>
int main(void)
{
    for (;;) {
        unsigned char *p = malloc(PINB);
        if (p)
            PORTB = *p;
        free(p);
    }
}
