#include <avr/io.h>
#include <string.h>
struct frame { uint8_t bytes[20]; } now, last;
int main(void)
{
    for (;;) {
        now.bytes[PINC & 15] = PINB;
        memcpy(&last, &now, sizeof now);
        PORTB = last.bytes[PIND & 15];
    }
}
