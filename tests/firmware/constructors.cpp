#include <avr/io.h>
struct Port { volatile uint8_t *where; Port(volatile uint8_t *p) : where(p) { *p = 1; } };
Port first(&DDRB);
struct Twice { uint8_t n; Twice() : n(PINB) { } };
Twice second;
int main() { for (;;) *first.where = second.n; }
