/* A function's address stands in the image of the EEPROM alone. */
#include "apart.h"

static void APART shallow(void) { t++; }

static task stored EEMEM = deep;

int main(void)
{
    task f = shallow;
    for (;;) {
        if (frame_of_six() == 7)
            f = (task)eeprom_read_word((uint16_t *)&stored);
        f();
    }
}
