// keeps a struct in the EEPROM
#include <EEPROM.h>

struct Settings { uint16_t magic; int16_t offset; float scale; };

Settings settings;

void setup() {
  Serial.begin(9600);
  EEPROM.get(0, settings);
  if (settings.magic != 0xA55A) {
    settings = { 0xA55A, 0, 1.0 };
    EEPROM.put(0, settings);
  }
}

void loop() {
  Serial.println((analogRead(A0) + settings.offset) * settings.scale);
  if (Serial.available()) {
    settings.offset = Serial.parseInt();
    EEPROM.put(0, settings);
  }
  delay(100);
}
