/* Its own fuses (section .fuse) let the chip start in the boot section, whose code takes a hundred bytes. */
#include <avr/interrupt.h>
#include <avr/io.h>
FUSES = {.low = 0xFF, .high = FUSE_BOOTRST & FUSE_BOOTSZ0 & FUSE_BOOTSZ1 & FUSE_SPIEN, .extended = 0xFD};
static volatile uint8_t ticks;
ISR(TIMER0_OVF_vect) { ticks++; }
__attribute__((naked, used, section(".boot"))) void boot(void) {
    __asm__ volatile(".rept 100\n push r0\n .endr\n .rept 100\n pop r0\n .endr\n jmp 0");
}
int main(void) {
    TCCR0B = 1;
    TIMSK0 = 1;
    sei();
    for (;;)
        ;
}
