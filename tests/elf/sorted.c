/* Several functions that the compiler moves and merges at -O2, a function through a pointer, and a text in data. */
#include <avr/io.h>

static unsigned char keys[12] = "stackbound!";

static unsigned char below(unsigned char a, unsigned char b) { return a < b; }

static unsigned char above(unsigned char a, unsigned char b) { return a > b; }

unsigned char (*volatile order)(unsigned char, unsigned char) = below;

__attribute__((noinline)) void sort(unsigned char *items, unsigned char count)
{
    for (unsigned char i = 1; i < count; i++) {
        unsigned char item = items[i];
        unsigned char j = i;
        while (j > 0 && order(item, items[j - 1])) {
            items[j] = items[j - 1];
            j--;
        }
        items[j] = item;
    }
}

__attribute__((noinline)) unsigned long mixed(const unsigned char *items, unsigned char count)
{
    unsigned long sum = 2166136261UL;
    while (count--)
        sum = (sum ^ *items++) * 16777619UL;
    return sum;
}

int main(void)
{
    for (;;) {
        sort(keys, sizeof keys - 1);
        PORTB = mixed(keys, sizeof keys);
        order = order == below ? above : below;
    }
}
