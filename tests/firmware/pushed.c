/* Assembly that pushes two bytes for a function to write. */
#include <avr/io.h>
unsigned both(uint8_t byte);
volatile unsigned result;
void halves(uint8_t byte, uint8_t *where)
{
    where[0] = byte & 15;
    where[1] = byte >> 4;
}
int main(void)
{
    for (;;)
        result = both(PINB);
}
