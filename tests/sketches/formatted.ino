// formats by snprintf and dtostrf
char line[40], number[12];

void setup() { Serial.begin(9600); }

void loop() {
  dtostrf(analogRead(A0) * 0.0049, 6, 3, number);
  snprintf(line, sizeof line, "%5lu s %s V %04X", millis() / 1000, number, analogRead(A1));
  Serial.println(line);
  delay(1000);
}
