#include <avr/io.h>
#include <avr/interrupt.h>
volatile uint8_t ticks;
ISR(TIMER0_OVF_vect) { ticks++; }
ISR(TIMER1_OVF_vect) { ticks++; }
int main(void) { TIMSK0 = 1; TIMSK1 = 1; sei(); for (;;) PORTB = ticks; }
