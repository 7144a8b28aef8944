// reads an A/D converter by SPI
#include <SPI.h>

const byte SELECT = 10;

int sample(byte channel) {
  SPI.beginTransaction(SPISettings(1000000, MSBFIRST, SPI_MODE0));
  digitalWrite(SELECT, LOW);
  SPI.transfer(1);
  byte high = SPI.transfer((8 + channel) << 4);
  byte low = SPI.transfer(0);
  digitalWrite(SELECT, HIGH);
  SPI.endTransaction();
  return (high & 3) << 8 | low;
}

void setup() {
  pinMode(SELECT, OUTPUT);
  digitalWrite(SELECT, HIGH);
  SPI.begin();
  Serial.begin(9600);
}

void loop() {
  for (byte channel = 0; channel < 8; channel++) {
    Serial.print(sample(channel));
    Serial.print(channel < 7 ? '\t' : '\n');
  }
  delay(250);
}
