/* A menu in flash, walked by recursion: with a password of five letters, which no simulated run gives. */
#include <avr/io.h>
#include <avr/pgmspace.h>
struct entry { char name, count; const struct entry *below; };
static const struct entry pins[] PROGMEM = {{'b', 0, 0}, {'c', 0, 0}};
static const struct entry bus[] PROGMEM = {{'s', 0, 0}, {'p', 2, pins}};
static const struct entry top[] PROGMEM = {{'i', 2, bus}, {'x', 0, 0}};
static uint8_t get(void)
{
    while (!(UCSR0A & 1 << RXC0))
        ;
    return UDR0;
}
static void __attribute__((noinline)) show(const struct entry *at, uint8_t count)
{
    for (; count--; at++) {
        while (!(UCSR0A & 1 << UDRE0))
            ;
        UDR0 = pgm_read_byte(&at->name);
        if (pgm_read_byte(&at->count))
            show((const struct entry *)pgm_read_word(&at->below), pgm_read_byte(&at->count));
    }
}
int main(void)
{
    UCSR0B = 1 << RXEN0 | 1 << TXEN0;
    for (uint16_t sum = 0;;) {
        for (uint8_t n = 0; n < 5; n++)
            sum = 31 * sum + get();
        if (sum == 0x2CE5)
            show(top, 2);
    }
}
