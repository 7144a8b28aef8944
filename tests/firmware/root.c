/* avr-libc's sqrt beside a function that is built with -mcall-prologues. */
#include <avr/io.h>
#include <math.h>
#include <stdlib.h>
static volatile float side = 2;
static float root(float x) {
    x = sqrt(x);
#ifdef CURED
    __asm__ volatile("clr r1");
#endif
    return x;
}
int main(void) {
    char text[14];
    UCSR0B = 1 << TXEN0;
    for (;;) {
        dtostrf(root(side), 7, 3, text);
        for (char *at = text; *at; at++)
            UDR0 = *at;
    }
}
