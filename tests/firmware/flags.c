/* A handler that keeps SREG in its frame, and gives it back. */
#include <avr/interrupt.h>
#include <avr/io.h>
#ifdef CURED
#define KEPT const
#else
#define KEPT volatile
#endif
static volatile uint8_t count;
__attribute__((noinline)) static void send(const uint8_t *bytes, uint8_t left) {
    while (left--)
        UEDATX = *bytes++;
}
ISR(USB_COM_vect) {
    uint8_t bytes[4];
    KEPT uint8_t old = SREG;
    cli();
    bytes[0] = UEINTX;
    bytes[1] = UEDATX;
    send(bytes, 2);
    SREG = old;
    count++;
}
ISR(USB_GEN_vect) { count--; }
int main(void) {
    UDIEN = 4;
    UEIENX = 8;
    sei();
    for (;;)
        ;
}
