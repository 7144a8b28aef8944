/* A keyboard of one key for USB: the endpoint's handler answers the host, and a timer's debounces the key. */
#include <avr/io.h>
#include <avr/interrupt.h>
#include <avr/pgmspace.h>
#include <avr/sleep.h>
static const uint8_t device[18] PROGMEM = { 18, 1, 0, 2, 0, 0, 0, 8, 0x09, 0x12, 1, 0, 0, 1, 0, 0, 0, 1 };
static volatile uint8_t configured, held, address;
ISR(USB_GEN_vect)
{
    UDINT = 0;
    UENUM = 0;
    UECONX = _BV(EPEN);
    UECFG1X = _BV(ALLOC);
    UEIENX = _BV(RXSTPE);
    configured = 0;
}
__attribute__((noinline)) static void wait_for_room(void)
{
    while (!(UEINTX & _BV(TXINI)))
        ;
}
__attribute__((noinline)) static void put(const uint8_t *from, uint8_t count)
{
    while (count) {
        wait_for_room();
        for (uint8_t n = 8; n && count; n--, count--)
            UEDATX = pgm_read_byte(from++);
        UEINTX = ~_BV(TXINI);
    }
}
ISR(USB_COM_vect)
{
    uint8_t request, value, length;
    UENUM = 0;
    UEDATX;
    request = UEDATX;
    value = UEDATX;
    UEDATX;
    UEDATX;
    UEDATX;
    length = UEDATX;
    UEINTX = ~_BV(RXSTPI);
    if (request == 6)
        put(device, length < sizeof device ? length : sizeof device);
    else if (request == 5)
        UDADDR = address = value;
    else
        configured = request == 9;
}
ISR(TIMER0_COMPA_vect)
{
    static uint8_t history;
    history = history << 1 | (PINB & 1);
    if (history == 0xFF || !history)
        held = history;
}
ISR(PCINT0_vect)
{
    PCICR = 0;
    sei();
    for (uint8_t n = 0; n < 50; n++)
        sleep_cpu();
    cli();
    PCICR = _BV(PCIE0);
}
__attribute__((noinline)) static void report(uint8_t key)
{
    UENUM = 3;
    wait_for_room();
    UEDATX = key;
    UEINTX = ~_BV(TXINI);
}
int main(void)
{
    TIMSK0 = _BV(OCIE0A);
    PCICR = _BV(PCIE0);
    USBCON = _BV(USBE);
    UDIEN = _BV(EORSTE);
    sei();
    for (;;)
        if (configured)
            report(held ? 4 : 0);
}
