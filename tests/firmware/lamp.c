// A lamp on an ATtiny13, whose stack pointer has eight bits: a button changes the step of its brightness, which follows the median of five readings.
#include <avr/interrupt.h>
#include <avr/io.h>

static volatile uint8_t ticks, presses;

ISR(TIM0_OVF_vect) {
    if (++ticks == 0)
        PORTB ^= 1 << PB4;
}

ISR(PCINT0_vect) {
    if (!(PINB & 1 << PB1))
        presses++;
}

static uint8_t reading(void) {
    ADCSRA |= 1 << ADSC;
    while (ADCSRA & 1 << ADSC)
        ;
    return ADCH;
}

static uint8_t __attribute__((noinline)) median(void) {
    uint8_t sorted[5];
    for (uint8_t count = 0; count < sizeof sorted; count++) {
        uint8_t byte = reading(), at = count;
        for (; at > 0 && sorted[at - 1] > byte; at--)
            sorted[at] = sorted[at - 1];
        sorted[at] = byte;
    }
    return sorted[2];
}

int main(void) {
    DDRB = 1 << PB0 | 1 << PB4;
    PORTB = 1 << PB1;
    TCCR0A = 1 << COM0A1 | 1 << WGM01 | 1 << WGM00;
    TCCR0B = 1 << CS00;
    TIMSK0 = 1 << TOIE0;
    PCMSK = 1 << PCINT1;
    GIMSK = 1 << PCIE;
    ADMUX = 1 << ADLAR | 1 << MUX1;
    ADCSRA = 1 << ADEN | 1 << ADPS2 | 1 << ADPS1;
    sei();
    for (;;) {
        uint8_t level = median() >> (presses & 3);
        if (ticks & 0x40)
            OCR0A = level;
    }
}
