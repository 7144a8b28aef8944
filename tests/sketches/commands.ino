// reads lines and does what they ask, by a table of functions
struct Command { const char *name; void (*run)(int argument); };

void on(int pin) { digitalWrite(pin, HIGH); }
void off(int pin) { digitalWrite(pin, LOW); }
void show(int pin) { Serial.println(analogRead(pin)); }

const Command commands[] = { { "on", on }, { "off", off }, { "show", show } };
char line[24];
byte length;

void obey() {
  char *rest;
  char *word = strtok_r(line, " ", &rest);
  char *number = strtok_r(NULL, " ", &rest);
  for (const Command &it : commands)
    if (word && !strcmp(word, it.name))
      it.run(number ? atoi(number) : 0);
}

void setup() {
  Serial.begin(115200);
  pinMode(LED_BUILTIN, OUTPUT);
}

void loop() {
  while (Serial.available()) {
    char letter = Serial.read();
    if (letter == '\n') {
      line[length] = 0;
      length = 0;
      obey();
    } else if (length < sizeof line - 1)
      line[length++] = letter;
  }
}
