/* A core of sketches in small: `main`, and a bus whose interrupt calls two services by a table, which call what the sketch has registered. */
#include "sketch.h"
static void (*volatile services[2])(void);
void (*Wire::at_receive)(void);
void (*Wire::at_request)(void);
Wire wire;
static volatile uint8_t served;
void Print::print(const char *text)
{
    while (*text)
        write(*text++);
}
void Wire::write(uint8_t byte) { TWDR = byte; }
void Wire::begin(void)
{
    services[0] = received;
    services[1] = requested;
    TWCR = 1 << TWIE;
}
void Wire::on_receive(void (*function)(void)) { at_receive = function; }
void Wire::on_request(void (*function)(void)) { at_request = function; }
void Wire::received(void)
{
    if (at_receive)
        at_receive();
    served++;
}
void Wire::requested(void)
{
    if (at_request)
        at_request();
    served++;
}
ISR(TWI_vect) { services[TWSR >> 3 & 1](); }
void init(void) { sei(); }
int main(void)
{
    init();
    setup();
    for (;;)
        loop();
}
