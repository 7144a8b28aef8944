// Two virtual functions: a call of the first can't reach the second, which calls it.
#include <avr/io.h>
struct Source { virtual int read() = 0; virtual int mean() = 0; };
struct Pin : Source { int read() override { return PINB; } int mean() override { return PINC; } };
struct Smooth : Source { Source *of; int last; int read() override { return last; } int mean() override { return last = (last + of->read()) / 2; } };
static Pin pin;
static Smooth smooth;
Source *volatile all[] = { &pin, &smooth };
int main() { smooth.of = &pin; for (;;) PORTB = all[PIND & 1]->mean(); }
