/* A recursive-descent parser: sums of products of numbers and brackets, of which a line has at most 15. */
#include <avr/interrupt.h>
#include <avr/io.h>
static char line[16];
static uint8_t at;
static volatile uint8_t left;
static int16_t sum(void);
static __attribute__((noinline)) int16_t prim(void) {
    int16_t value = 0;
    if (line[at] == '(') {
        at++;
        value = sum();
        at++;
        return value;
    }
    while (line[at] >= '0' && line[at] <= '9')
        value = value * 10 + line[at++] - '0';
    return value;
}
static __attribute__((noinline)) int16_t sum(void) {
    int16_t value = prim();
    while (line[at] == '+') {
        at++;
        value += prim();
    }
    return value;
}
ISR(TIMER0_OVF_vect) { left--; }
int main(void) {
    UCSR0B = 1 << RXEN0;
    TCCR0B = 1;
    TIMSK0 = 1;
    sei();
    for (;;) {
        for (uint8_t n = 0; n < 15; n++) {
            while (!(UCSR0A & 1 << RXC0))
                ;
            line[n] = UDR0;
        }
        at = 0;
        UDR0 = sum();
    }
}
