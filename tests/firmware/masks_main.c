#include "masks.h"
int main(void)
{
    enable(&TIMSK0, 1);
    enable(&TIMSK1, 1);
    enable(&TIMSK2, 1);
    enable(&PCICR, 1);
    enable(&EIMSK, 1);
    enable(&UCSR0B, 128);
    sei();
    for (;;)
        PORTB = count;
}
