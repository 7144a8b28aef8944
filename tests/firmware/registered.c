#include <avr/io.h>
volatile uint8_t level;
struct job { uint8_t every; void (*work)(void); };
static void up(void) { level++; }
static void show(void) { volatile uint8_t digits[3] = { level, level >> 4, 1 }; PORTB = digits[1]; }
struct job jobs[] = { { 3, up }, { 7, show } };
int main(void)
{
    for (uint8_t n = 0;; n++)
        for (uint8_t i = 0; i < 2; i++)
            if (n % jobs[i].every == 0)
                jobs[i].work();
}
