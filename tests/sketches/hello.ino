// prints numbers and texts by Serial
unsigned long count;

void setup() {
  Serial.begin(9600);
  while (!Serial) ;
}

void loop() {
  Serial.print(F("count "));
  Serial.print(count++);
  Serial.print(", volts ");
  Serial.println(analogRead(A0) * 5.0 / 1023, 3);
  delay(500);
}
