// Printing as in the Arduino core: a virtual function calls another one of its own object, and a menu prints from a virtual function of its own.
#include "apart.h"
extern "C" void __cxa_pure_virtual() { for (;;) ; }
struct Print {
    virtual size_t write(uint8_t c) = 0;
    virtual size_t write(const uint8_t *text, size_t size);
    size_t print(const char *text);
};
size_t Print::write(const uint8_t *text, size_t size)
{
    size_t n = 0;
    while (size--)
        n += write(*text++);
    return n;
}
size_t Print::print(const char *text)
{
    size_t size = 0;
    while (text[size])
        size++;
    return write((const uint8_t *)text, size);
}
struct Port : Print {
    size_t write(uint8_t c);
    using Print::write;
};
size_t Port::write(uint8_t c) { UDR0 = c; return 1; }
static Port port;
struct Page { virtual void show(); virtual void press(uint8_t key); };
void Page::show() { port.print("page"); }
void Page::press(uint8_t key) { t = key; }
struct Last : Page { void show(); };
void Last::show() { deep(); port.print("last"); }
static Page first;
static Last last;
static Page *volatile shown = &first;
int main()
{
    for (;;) {
        if (frame_of_six() == 7)
            shown = &last;
        shown->press(PINB);
        shown->show();
    }
}
