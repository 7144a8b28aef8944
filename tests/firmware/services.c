/* Services by a table of jumps at a fixed place, as boot loaders offer them; a simulated run uses the first two. One callback elsewhere. */
#include <avr/interrupt.h>
#include <avr/io.h>
#define SERVICES (0x7000 / 2)
__asm__(".section .services, \"ax\", @progbits\n"
        ".global service_blink\n service_blink: jmp blink\n"
        ".global service_read\n service_read: jmp read\n"
        ".global service_fill\n service_fill: jmp fill\n"
        ".text\n");
static volatile uint8_t page[32];
__attribute__((used)) void blink(void)
{
    PORTB ^= 1;
}
__attribute__((used)) void read(void)
{
    PORTD = PINC;
}
__attribute__((used)) void fill(void)
{
    volatile uint8_t taken[32];
    for (uint8_t n = 0; n < 32; n++)
        taken[n] = PINC;
    for (uint8_t n = 0; n < 32; n++)
        page[n] = taken[n];
}
static void tick(void)
{
    PORTC++;
}
#ifndef ALONE
static void (*volatile each)(void) = tick;
#endif
ISR(TIMER0_OVF_vect)
{
#ifdef ALONE
    tick();
#else
    each();
#endif
}
static void __attribute__((noinline)) use(uint8_t number)
{
    ((void (*)(void))(SERVICES + 2 * number))();
}
int main(void)
{
#ifndef ALONE
    use(PINB & 1);
#endif
    TIMSK0 = 1 << TOIE0;
    sei();
    for (;;) {
        uint8_t number = PIND;
        if (PINB == 0x37 && PINC == 0x91 && number < 3)
            use(number);
    }
}
