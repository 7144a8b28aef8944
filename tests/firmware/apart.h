/* A function that is entered late: behind a frame with a checksum, which no trial run finds. */
#include <avr/eeprom.h>
#include <avr/interrupt.h>
#include <avr/io.h>
#include <util/crc16.h>

#define APART __attribute__((noinline, noclone))

typedef void (*task)(void);

static volatile uint8_t t;

static uint8_t frame_of_six(void)
{
    uint8_t f[6];
    uint16_t c = 0xFFFF;
    for (uint8_t i = 0; i < 6; i++) {
        while (!(UCSR0A & _BV(RXC0)))
            ;
        f[i] = UDR0;
        c = _crc_ccitt_update(c, f[i]);
    }
    return c ? 0 : f[0];
}

static void APART deep(void)
{
    volatile uint8_t b[50];
    for (uint8_t i = 0; i < 50; i++)
        b[i] = t;
    t = b[2];
}
