/* A sketch that registers no function. Without -flto the compiler doesn't see that, and each service may call the other. */
#include "sketch.h"
void setup(void) { wire.begin(); }
void loop(void) { wire.print("hello"); }
