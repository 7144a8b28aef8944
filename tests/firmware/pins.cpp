// A driver with the address of a port in each object, which a constructor fills that isn't inlined.
#include "apart.h"
class Pin {
  public:
    Pin(volatile uint8_t *port, uint8_t bit);
    void set(bool is_on) { if (is_on) *port |= mask; else *port &= ~mask; }

  private:
    volatile uint8_t *port;
    uint8_t mask;
};
Pin::Pin(volatile uint8_t *its_port, uint8_t bit) : port(its_port), mask(1 << bit) {}
static Pin lamp(&PORTB, 5), horn(&PORTC, 2), fan(&PORTD, 3);
static Pin *const pins[] = {&lamp, &horn, &fan};
int main()
{
    for (;;)
        for (uint8_t n = 0; n < 3; n++)
            pins[n]->set(frame_of_six() & 1 << n);
}
