// puts texts together by String
String line;

void setup() {
  Serial.begin(9600);
  line.reserve(40);
}

void loop() {
  line = "t=";
  line += millis() / 1000;
  line += ";a=";
  line += String(analogRead(A1), HEX);
  if (line.indexOf('f') >= 0)
    line.replace("f", "F");
  line.toUpperCase();
  Serial.println(line.substring(2));
  delay(100);
}
