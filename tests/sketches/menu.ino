// a menu of entries with virtual functions, drawn on Serial
class Entry {
public:
  explicit Entry(const __FlashStringHelper *title) : title(title) {}
  virtual void chosen() = 0;
  virtual int value() const { return 0; }
  void draw(bool isMarked) const {
    Serial.print(isMarked ? '>' : ' ');
    Serial.print(title);
    Serial.print(' ');
    Serial.println(value());
  }

private:
  const __FlashStringHelper *title;
};

class Toggle : public Entry {
public:
  Toggle(const __FlashStringHelper *title, byte pin) : Entry(title), pin(pin) {}
  void chosen() override { digitalWrite(pin, !digitalRead(pin)); }
  int value() const override { return digitalRead(pin); }

private:
  byte pin;
};

class Level : public Entry {
public:
  Level(const __FlashStringHelper *title, byte pin) : Entry(title), pin(pin), level(0) {}
  void chosen() override { analogWrite(pin, level += 16); }
  int value() const override { return level; }

private:
  byte pin, level;
};

const char LAMP[] PROGMEM = "lamp";
const char FAN[] PROGMEM = "fan";
Toggle lamp(reinterpret_cast<const __FlashStringHelper *>(LAMP), 13);
Level fan(reinterpret_cast<const __FlashStringHelper *>(FAN), 9);
Entry *entries[] = { &lamp, &fan };
byte marked;

void setup() { Serial.begin(9600); }

void loop() {
  for (byte n = 0; n < 2; n++)
    entries[n]->draw(n == marked);
  int letter = Serial.read();
  if (letter == 'n')
    marked = (marked + 1) % 2;
  if (letter == 'c')
    entries[marked]->chosen();
  delay(50);
}
