#include <avr/io.h>
uint16_t samples[8];
int main(void)
{
    for (;;) {
        for (uint8_t i = 0; i < 8; i++) samples[i] = PINB;
        PORTB = samples[PINC & 7];
    }
}
