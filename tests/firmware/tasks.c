/* Two stacks, between which a function turns. */
#include <avr/io.h>
static uint8_t other[64], now;
static uint16_t kept[2];
static void second(void) {
    for (;;)
        PORTB ^= 1;
}
__attribute__((naked, noinline)) static void turn(void) {
    __asm__ volatile("push r28\n push r29\n");
    kept[now] = SP;
    now ^= 1;
    SP = kept[now];
    __asm__ volatile("pop r29\n pop r28\n ret");
}
int main(void) {
    uint16_t at = (uint16_t)second;
    other[61] = at;
    other[60] = at >> 8;
    kept[1] = (uint16_t)&other[57];
    for (;;) {
        PORTC ^= 1;
        turn();
    }
}
