// runs functions at their times, one of which changes another's
typedef void (*Action)();

struct Task { Action action; unsigned long period, next; };

void blink() { digitalWrite(LED_BUILTIN, !digitalRead(LED_BUILTIN)); }
void sample();
void say() { Serial.println(millis()); }

Task tasks[] = { { blink, 500, 0 }, { sample, 20, 0 }, { say, 1000, 0 } };

void sample() { tasks[0].period = analogRead(A0) + 10; }

void setup() {
  pinMode(LED_BUILTIN, OUTPUT);
  Serial.begin(9600);
}

void loop() {
  for (Task &it : tasks)
    if (millis() - it.next < 0x80000000) {
      it.next += it.period;
      it.action();
    }
}
