/* A boot loader, as it is linked: nothing stands at address 0. */
#include <avr/boot.h>
#include <avr/io.h>
int main(void) {
    SP = RAMEND;
    UCSR0B = 1 << RXEN0;
    uint16_t at = 0;
    for (;;) {
        while (!(UCSR0A & 1 << RXC0))
            ;
        uint8_t byte = UDR0;
        if (byte == 0xFF)
            ((void (*)(void))0)();
        boot_page_fill(at, byte);
        at += 2;
        if (at % SPM_PAGESIZE == 0) {
            boot_page_write(at - SPM_PAGESIZE);
            boot_spm_busy_wait();
        }
    }
}
