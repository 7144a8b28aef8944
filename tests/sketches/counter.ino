// counts edges and turns of an encoder by interrupts
volatile unsigned long edges;
volatile int turned;
volatile byte last;

void edge() { edges++; }

void turn() {
  byte now = digitalRead(3) << 1 | digitalRead(4);
  if ((last ^ now) == 1 || (last ^ now) == 2)
    turned += (last ^ now) == 1 ? 1 : -1;
  last = now;
}

void setup() {
  pinMode(2, INPUT_PULLUP);
  attachInterrupt(digitalPinToInterrupt(2), edge, FALLING);
  attachInterrupt(digitalPinToInterrupt(3), turn, CHANGE);
  Serial.begin(9600);
}

void loop() {
  noInterrupts();
  unsigned long seen = edges;
  int steps = turned;
  interrupts();
  Serial.println(seen);
  Serial.println(steps);
  delay(1000);
}
