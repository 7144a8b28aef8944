/* Notes the cause of a reset before avr-libc's start-up code sets the stack pointer. */
#include <avr/io.h>
static uint8_t cause __attribute__((section(".noinit")));
static __attribute__((noinline, used)) void note(void)
{
    cause = MCUSR;
    MCUSR = 0;
}
__attribute__((naked, used, section(".init0"))) void first(void)
{
    asm volatile ("rcall note");
}
int main(void)
{
    DDRB = cause;
    for (;;)
        ;
}
