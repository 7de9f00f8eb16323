/* A lamp that is switched by a key, on an ATtiny13: the chip sleeps until the key's interrupt. */
#define F_CPU 1200000UL
#include <avr/io.h>
#include <avr/interrupt.h>
#include <avr/sleep.h>
#include <util/delay.h>

static volatile uint8_t pressed;
static uint8_t lit;

ISR(INT0_vect)
{
  pressed = 1;
}

int main(void)
{
  uint8_t seen, now;
  DDRB = _BV(PB4);
  PORTB = _BV(PB1);
  MCUCR = _BV(SE);
  GIMSK = _BV(INT0);
  while (1) {
    cli();
    seen = pressed;
    if (seen) {
      pressed = 0;
      sei();
      now = lit;
      now = !now;
      lit = now;
      PORTB = now ? _BV(PB4) | _BV(PB1) : _BV(PB1);
      _delay_ms(20);
    } else {
      sei();
      sleep_cpu();
    }
  }
}
