// A virtual function that is kept as a plain pointer: GNU C++ makes one of a pointer to a member with an object. With KEPT 1 the member is
// known and stands in a table of operations, with 2 it is chosen late and stands in a variable, with 3 the function is handed on. With 0 what
// is read at the place of a table's function is a node of a list, and nothing is kept.
#include "apart.h"
#ifndef KEPT
#define KEPT 0
#endif
struct State { virtual void begin(); virtual void end(); uint8_t n; };
struct Late : State { void end() override; };
typedef void (*plain)(State *);
void State::begin() { t = n; }
void State::end() { t = n + 1; }
void Late::end() { deep(); }
static State state;
static Late late;
static State *volatile now = &state;
static void idle(State *s) { t = s->n; }
struct Operations { plain run; };
static Operations operations = {idle};
struct Device { Operations *operations; } device = {&operations};
static Device *volatile used = &device;
struct Node { Node *next; uint8_t byte; } nodes[3] = {{&nodes[1], 1}, {&nodes[2], 2}, {0, 3}};
static Node *volatile first = &nodes[0];
static void (State::*volatile step)() = &State::begin;
static plain kept = idle;
static void APART attach(plain given) { kept = given; }
static void APART fire() { kept(now); }
int main()
{
    for (;;) {
        if (frame_of_six() == 7)
            now = &late, step = &State::end;
        State *s = now;
#if KEPT == 1
        used->operations->run = (plain)(s->*(&State::end));
#elif KEPT == 2
        kept = (plain)(s->*step);
#elif KEPT == 3
        attach((plain)(s->*(&State::end)));
#else
        first->next = first->next->next;
        attach(idle);
#endif
        used->operations->run(now);
        s->begin();
        fire();
    }
}
