// A pointer to a virtual member function holds a place: the call may enter what stands at any place of a table.
#include "apart.h"
struct State { virtual void begin(); virtual void end(); uint8_t n; };
void State::begin() { t = n; }
void State::end() { deep(); }
static State state;
static void (State::*volatile step)() = &State::begin;
int main()
{
    for (;;) {
        if (frame_of_six() == 7)
            step = &State::end;
        (state.*step)();
    }
}
