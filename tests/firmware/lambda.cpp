#include <avr/io.h>
volatile uint8_t level;
void (*on_press)(uint8_t);
__attribute__((noinline)) void poll() { if (PINB & 1) on_press(PINC); }
int main()
{
    on_press = [](uint8_t n) { volatile uint8_t digits[2] = { n, level }; PORTB = digits[1]; };
    for (;;)
        poll();
}
