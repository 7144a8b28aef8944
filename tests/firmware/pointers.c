#include <avr/io.h>
volatile uint8_t n;
static void up(void) { n++; }
static void down(void) { n--; }
static void (*const work[])(void) = { up, down };
int main(void) { for (;;) work[PINB & 1](); }
