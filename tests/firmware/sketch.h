/* What a sketch sees of the core in small of sketch_core.cpp. */
#include <avr/io.h>
#include <avr/interrupt.h>
extern "C" { void init(void); void setup(void); void loop(void); }
class Print {
public:
    virtual void write(uint8_t byte) = 0;
    void print(const char *text);
};
class Wire : public Print {
public:
    virtual void write(uint8_t byte);
    void begin(void);
    void on_receive(void (*function)(void)), on_request(void (*function)(void));
    static void received(void), requested(void);
private:
    static void (*at_receive)(void);
    static void (*at_request)(void);
};
extern Wire wire;
