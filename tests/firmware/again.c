/* A handler clears its own bit and lets interrupts in; another one sets that bit again meanwhile, though a flag keeps it from that. */
#include <avr/io.h>
#include <avr/interrupt.h>
volatile unsigned char busy, sum;
void __attribute__((noinline)) work(void) { sum += PINB; }
ISR(TIMER1_COMPA_vect) { if (!busy) TIMSK2 |= 1 << OCIE2A; }
ISR(TIMER2_COMPA_vect) { TIMSK2 &= ~(1 << OCIE2A); busy = 1; sei(); work(); cli(); busy = 0; }
int main(void) { TIMSK1 = 1 << OCIE1A; TIMSK2 = 1 << OCIE2A; sei(); for (;;) ; }
