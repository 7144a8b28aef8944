/* Commands in flash: names and functions, so that the functions' words aren't one behind the other. */
#include <avr/pgmspace.h>

#include "apart.h"

static void APART get(void) { t++; }
static void APART set(void) { deep(); }
static void APART help(void) { t--; }

static const struct { char name[4]; task run; } commands[] PROGMEM = { { "get", get }, { "set", set }, { "hlp", help } };

int main(void)
{
    for (;;) {
        uint8_t n = frame_of_six();
        for (uint8_t i = 0; i < 3; i++)
            if (pgm_read_byte(&commands[i].name[0]) == n)
                ((task)pgm_read_word(&commands[i].run))();
    }
}
