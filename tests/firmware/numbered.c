/* Calls of services of another program, which has a table of jumps at a fixed address: 2 words for each. */
#include "apart.h"
int main(void)
{
    for (;;) {
        uint8_t number = frame_of_six();
        ((task)(uintptr_t)(0x3F00 + 2 * (number & 7)))();
    }
}
