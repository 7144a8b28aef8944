// answers on the two-wire bus: callbacks from an interrupt
#include <Wire.h>

volatile byte registers[8];
volatile byte chosen;

void received(int count) {
  if (count > 0)
    chosen = Wire.read() & 7;
  while (Wire.available())
    registers[chosen++ & 7] = Wire.read();
}

void requested() { Wire.write(registers[chosen++ & 7]); }

void setup() {
  Wire.begin(0x42);
  Wire.onReceive(received);
  Wire.onRequest(requested);
}

void loop() { registers[0] = digitalRead(2); }
