/* An address that is kept in a list with its bytes in the other order: what is read as a pair is no pointer once it is swapped. */
#include <avr/io.h>

struct node {
    struct node *next;
    uint16_t at;
};

static struct node nodes[3] = {{&nodes[1], 0}, {&nodes[2], 0}, {0, 0}};
static struct node *volatile list = nodes;

int main(void)
{
    for (;;) {
        list->next->at = PINB | PINC << 8;
        uint16_t at = list->next->at;
#ifdef EXCLUSIVE
        __asm__("eor %A0, %B0\n\teor %B0, %A0\n\teor %A0, %B0" : "+r"(at));
#else
        at = at >> 8 | at << 8;
#endif
        *(volatile uint8_t *)at = PIND;
    }
}
