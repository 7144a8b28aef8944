#include <avr/io.h>
#include <avr/interrupt.h>
volatile uint8_t ticks;
#ifdef CURED
ISR(BADISR_vect) { for (;;) ; }
#endif
ISR(TIMER0_OVF_vect) { ticks++; }
int main(void) { TIMSK0 = 3; sei(); for (;;) PORTB = ticks; }
