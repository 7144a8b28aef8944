// A sensor that answers over its UART: ring buffers, a filter, and a clock whose handler lets the others in.
#include <avr/io.h>
#include <avr/interrupt.h>
#include <avr/sleep.h>
struct ring { volatile uint8_t first, next; uint8_t bytes[16]; };
static struct ring in, out;
static volatile uint16_t level, shown;
static volatile uint8_t seconds;
ISR(USART_RX_vect)
{
    uint8_t next = in.next;
    in.bytes[next & 15] = UDR0;
    in.next = next + 1;
}
ISR(USART_UDRE_vect)
{
    uint8_t first = out.first;
    if (first == out.next) {
        UCSR0B = _BV(RXCIE0) | _BV(RXEN0) | _BV(TXEN0);
        return;
    }
    UDR0 = out.bytes[first & 15];
    out.first = first + 1;
}
ISR(ADC_vect)
{
    level = ADC;
}
__attribute__((noinline)) static uint16_t filter(uint16_t old, uint16_t now)
{
    uint32_t sum = 7ul * old + now;
    return sum / 8;
}
ISR(INT0_vect)
{
    EIMSK = 0;
    sei();
    shown = filter(shown, level);
    seconds++;
    cli();
    EIMSK = _BV(INT0);
}
__attribute__((noinline)) static void put(char byte)
{
    uint8_t next = out.next;
    while ((uint8_t)(next - out.first) == 16)
        sleep_cpu();
    out.bytes[next & 15] = byte;
    out.next = next + 1;
    UCSR0B = _BV(RXCIE0) | _BV(RXEN0) | _BV(TXEN0) | _BV(UDRIE0);
}
__attribute__((noinline)) static void put_number(uint16_t number)
{
    char digits[5];
    uint8_t count = 0;
    do digits[count++] = '0' + number % 10;
    while (number /= 10);
    while (count)
        put(digits[--count]);
}
__attribute__((noinline)) static void answer(char byte)
{
    if (byte == 'l')
        put_number(shown);
    else if (byte == 's')
        put_number(seconds);
    else
        put('?');
    put('\n');
}
int main(void)
{
    ADCSRA = _BV(ADEN) | _BV(ADSC) | _BV(ADATE) | _BV(ADIE);
    EIMSK = _BV(INT0);
    UCSR0B = _BV(RXCIE0) | _BV(RXEN0) | _BV(TXEN0);
    sei();
    for (;;) {
        uint8_t first = in.first;
        while (first == in.next)
            sleep_cpu();
        in.first = first + 1;
        answer(in.bytes[first & 15]);
    }
}
