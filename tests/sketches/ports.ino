// passes lines from one port of hardware to another
void pass(Stream &from, Print &to) {
  while (from.available())
    to.write(from.read());
}

void setup() {
  Serial.begin(9600);
  Serial1.begin(38400);
}

void loop() {
  pass(Serial1, Serial);
  pass(Serial, Serial1);
  if (Serial1.find("OK"))
    Serial.println(Serial1.parseFloat());
}
