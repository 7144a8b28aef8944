/* A function's address goes byte by byte through a union. */
#include "apart.h"

static void APART shallow(void) { t++; }

static union { uint8_t b[2]; task f; } u;

int main(void)
{
    u.f = shallow;
    for (;;) {
        if (frame_of_six() == 7) {
            uint16_t n = (uint16_t)deep;
            u.b[0] = n;
            u.b[1] = n >> 8;
        }
        u.f();
    }
}
