// passes bytes between a serial port in software and the one in hardware
#include <SoftwareSerial.h>

SoftwareSerial modem(10, 11);

void setup() {
  Serial.begin(57600);
  modem.begin(4800);
  modem.println("AT");
}

void loop() {
  if (modem.available())
    Serial.write(modem.read());
  if (Serial.available())
    modem.write(Serial.read());
}
