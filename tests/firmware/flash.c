#include <avr/io.h>
#include <avr/pgmspace.h>
volatile uint8_t level;
static void up(void) { level++; }
static void down(void) { level--; }
static void show(void) { volatile uint8_t digits[3] = { level, level >> 4, 1 }; PORTB = digits[1]; }
static void (*const work[])(void) PROGMEM = { up, down, show };
int main(void)
{
    for (;;) {
        uint8_t n = PINB;
        if (n < 3)
            ((void (*)(void))pgm_read_word(&work[n]))();
    }
}
