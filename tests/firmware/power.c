/* pow of avr-libc, whose exp pushes four bytes for modf to write. */
#include <avr/io.h>
#include <math.h>
static volatile float base = 2.5, result;
int main(void) {
    for (;;) {
        base = PINB + 1;
        result = pow(base, 1.5);
    }
}
