/* A digit that counts seconds, on an ATtiny85: segments from a table, and the watchdog. */
#include <avr/io.h>
#include <avr/interrupt.h>
#include <avr/wdt.h>
#include "clock.h"

static const uint8_t font[10] = { 0x3F, 0x06, 0x5B, 0x4F, 0x66, 0x6D, 0x7D, 0x07, 0x7F, 0x6F };
static uint8_t digit;

static void show(void)
{
  uint8_t number, segments;
  number = digit;
  segments = font[number];
  PORTB = segments;
}

int main(void)
{
  uint8_t passed, number;
  DDRB = 0x3F;
  clock_start();
  wdt_enable(WDTO_2S);
  sei();
  show();
  while (1) {
    wdt_reset();
    passed = clock_second();
    if (passed) {
      number = digit;
      number = number == 9 ? 0 : number + 1;
      digit = number;
      show();
    }
  }
}
