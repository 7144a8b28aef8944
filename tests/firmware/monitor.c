/* A monitor writes a byte to an address that it receives: any, SREG's too. RANGE: within some registers; POINTER: to what a pointer leads that
   is copied from the message; SUM: as far from an object as it receives; FIELD: through a pointer to another variable. */
#include <string.h>
#include "apart.h"
static uint8_t message[3], room[16];
static uint8_t *next = room;
static uint16_t received(void) { return message[0] << 8 | message[1]; }
int main(void)
{
    for (;;) {
        message[0] = frame_of_six();
        message[1] = PINB;
        message[2] = PINC;
#if defined RANGE
        uint16_t at = received();
        if (at >= 0xC0 && at < 0xC7)
            *(volatile uint8_t *)at = message[2];
#elif defined POINTER
        uint8_t *at;
        memcpy(&at, message, sizeof at);
        *at = message[2];
#elif defined SUM
        room[received() & 0x1FF] = message[2];
#elif defined FIELD
        *next = message[2];
        next = next == room + sizeof room ? room : next + 1;
#else
        *(volatile uint8_t *)received() = message[2];
#endif
    }
}
