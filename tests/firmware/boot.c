#include <avr/boot.h>
#include <avr/io.h>
int main(void)
{
    for (;;) {
        boot_page_erase(0x1000);
        boot_spm_busy_wait();
    }
}
