/* A timer that overflows some four times a second at 1 MHz. */
#include <avr/io.h>
#include <avr/interrupt.h>
#include "clock.h"

static volatile uint8_t quarters;

ISR(TIMER0_OVF_vect)
{
  uint8_t seen;
  seen = quarters;
  quarters = seen + 1;
}

void clock_start(void)
{
  TCCR0B = _BV(CS02) | _BV(CS00);
  TIMSK = _BV(TOIE0);
}

/* Whether a second has passed since the answer was last 1. */
uint8_t clock_second(void)
{
  uint8_t seen;
  seen = quarters;
  if (seen < 4) {
    return 0;
  }
  cli();
  seen = quarters;
  quarters = seen - 4;
  sei();
  return 1;
}
