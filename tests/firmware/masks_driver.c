#include "masks.h"
volatile uint8_t count, edges, overruns;
void enable(volatile uint8_t *mask, uint8_t bits) { *mask |= bits; }
ISR(TIMER0_OVF_vect) { count++; }
ISR(TIMER1_OVF_vect) { overruns = count; }
ISR(TIMER2_OVF_vect) { edges--; }
ISR(PCINT0_vect) { edges++; }
ISR(INT0_vect) { count = 0; }
ISR(USART_RX_vect) { count = UDR0; }
