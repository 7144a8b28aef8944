// a handler of one's own beside those of the core
volatile unsigned int ticks;
volatile bool isDue;

ISR(TIMER1_COMPA_vect) {
  if (++ticks % 100 == 0)
    isDue = true;
}

void setup() {
  noInterrupts();
  TCCR1A = 0;
  TCCR1B = _BV(WGM12) | _BV(CS11) | _BV(CS10);
  OCR1A = 2499;
  TIMSK1 = _BV(OCIE1A);
  interrupts();
  Serial.begin(9600);
}

void loop() {
  if (isDue) {
    isDue = false;
    tone(8, 440, 50);
    Serial.println(pulseIn(7, HIGH, 20000));
  }
}
