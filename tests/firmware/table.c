/* A handler that has cleared its own bit calls through a table in flash, and one of the two functions lets interrupts in. */
#include <avr/io.h>
#include <avr/interrupt.h>
#include <avr/pgmspace.h>
volatile unsigned char n;
void __attribute__((noinline)) open_up(void) { sei(); n++; cli(); }
void __attribute__((noinline)) closed(void) { n--; }
void (*const jobs[])(void) PROGMEM = { closed, open_up };
ISR(TIMER0_OVF_vect) { TIMSK0 = 0; ((void (*)(void))pgm_read_word(&jobs[PINB & 1]))(); TIMSK0 = 1; }
ISR(TIMER1_OVF_vect) { n += 2; }
int main(void) { TIMSK0 = 1; TIMSK1 = 1; sei(); for (;;) ; }
