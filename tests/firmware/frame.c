#include <avr/io.h>
#ifndef SIZE
#define SIZE 256
#endif
__attribute__((noinline)) void fill(uint8_t *v) { for (uint8_t i = 0; i < 250; i++) v[i] = PINB; }
__attribute__((noinline)) uint8_t sample(void) { uint8_t v[SIZE]; fill(v); return v[PINC & 127]; }
int main(void) { for (;;) PORTB = sample(); }
