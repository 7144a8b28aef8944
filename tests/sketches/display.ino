// a Print of one's own, beside Serial, and a function that prints on either
class Display : public Print {
public:
  Display(byte data, byte clock) : data(data), clock(clock), column(0) {}
  void begin() { pinMode(data, OUTPUT); pinMode(clock, OUTPUT); }
  size_t write(uint8_t letter) override {
    if (letter == '\n')
      column = 0;
    else {
      shiftOut(data, clock, MSBFIRST, letter);
      column++;
    }
    return 1;
  }
  using Print::write;

private:
  byte data, clock, column;
};

Display display(5, 6);

void report(Print &to, int value) {
  to.print("value ");
  to.println(value);
}

void setup() {
  Serial.begin(9600);
  display.begin();
}

void loop() {
  int value = analogRead(A0);
  report(display, value);
  report(Serial, value);
  delay(200);
}
