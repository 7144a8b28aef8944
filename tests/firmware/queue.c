/* Functions go byte by byte through a queue in SRAM. */
#include "apart.h"

static void APART shallow(void) { t++; }

static uint8_t bytes[8], end;

static void APART put(const uint8_t *p)
{
    bytes[end++ & 7] = p[0];
    bytes[end++ & 7] = p[1];
}

int main(void)
{
    task f = shallow, g = deep;
    put((uint8_t *)&f);
    for (;;) {
        if (frame_of_six() == 7)
            put((uint8_t *)&g);
        task h;
        ((uint8_t *)&h)[0] = bytes[(uint8_t)(end - 2) & 7];
        ((uint8_t *)&h)[1] = bytes[(uint8_t)(end - 1) & 7];
        h();
    }
}
