#include <avr/io.h>
#include <avr/interrupt.h>
void enable(volatile uint8_t *mask, uint8_t bits);
void disable(volatile uint8_t *mask, uint8_t bits);
extern volatile uint8_t count;
