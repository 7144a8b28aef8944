#include <avr/io.h>
struct Shape { virtual uint8_t area(); virtual uint8_t edge(); uint8_t n; };
uint8_t Shape::area() { return n; }
uint8_t Shape::edge() { return 1; }
struct Square : Shape { uint8_t area(); uint8_t edge(); };
uint8_t Square::area() { return n * n; }
uint8_t Square::edge() { return PINC; }
Shape a; Square b;
Shape *volatile chosen = &a;
int main() { if (PINB) chosen = &b; for (;;) { PORTB = chosen->area(); } }
