// resets the chip if the loop stops
#include <avr/wdt.h>

void setup() {
  Serial.begin(9600);
  wdt_enable(WDTO_2S);
}

void loop() {
  Serial.println(millis());
  wdt_reset();
  delay(1000);
}
