#include <avr/io.h>
#include <avr/interrupt.h>
ISR(TIMER0_OVF_vect)
{
    PORTB++;
}
namespace input {
struct Button {
    volatile uint8_t *mask;
    __attribute__((noinline)) void poll();
    __attribute__((noinline)) void poll(uint8_t bits);
    __attribute__((noinline)) void release() { *mask = 0; }
};
void Button::poll() { *mask = 1; }
void Button::poll(uint8_t bits) { *mask |= bits; }
}
input::Button button = { &TIMSK0 };
int main()
{
    sei();
    for (;;) {
        button.poll();
        button.poll(PINB);
        button.release();
    }
}
