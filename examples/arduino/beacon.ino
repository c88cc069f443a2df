// Sends a count by radio each 20 ms, and tells it and the radio's answer on Serial, by Arduino's libraries alone.
#include <SPI.h>

const byte SEND = 0x01;

byte count;

void setup() {
  Serial.begin(115200);
  pinMode(SS, OUTPUT);
  SPI.begin();
  digitalWrite(SS, LOW);  // low selects the radio
  Serial.println("beacon");
}

void loop() {
  delay(20);
  SPI.transfer(SEND);
  byte answer = SPI.transfer(count);
  Serial.print(count);
  Serial.println(answer == 0 ? " sent" : " refused");
  count++;
}
