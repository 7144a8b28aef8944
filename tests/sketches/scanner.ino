// looks for devices on the two-wire bus
#include <Wire.h>

void setup() {
  Wire.begin();
  Serial.begin(9600);
}

void loop() {
  byte found = 0;
  for (byte address = 1; address < 127; address++) {
    Wire.beginTransmission(address);
    if (Wire.endTransmission() == 0) {
      Serial.print(F("device at 0x"));
      Serial.println(address, HEX);
      found++;
    }
  }
  if (!found)
    Serial.println(F("none"));
  delay(5000);
}
