/* A level in steps of an eighth, from a voltage at ADC0 of an ATmega8, on eight lamps; an average over four samples. */
#include <avr/io.h>
#include <avr/interrupt.h>

static const uint8_t bars[9] = { 0x00, 0x01, 0x03, 0x07, 0x0F, 0x1F, 0x3F, 0x7F, 0xFF };
static volatile uint16_t sample;
static volatile uint8_t is_new;
static uint16_t samples[4];
static uint8_t at;

ISR(ADC_vect)
{
  uint16_t value;
  value = ADC;
  sample = value;
  is_new = 1;
}

static uint16_t average(void)
{
  uint16_t sum, value;
  sum = 0;
  value = samples[0];
  sum = sum + value;
  value = samples[1];
  sum = sum + value;
  value = samples[2];
  sum = sum + value;
  value = samples[3];
  sum = sum + value;
  return sum / 4;
}

int main(void)
{
  uint8_t ready, place, lamps;
  uint16_t value, step;
  DDRD = 0xFF;
  ADMUX = _BV(REFS0);
  ADCSRA = _BV(ADEN) | _BV(ADSC) | _BV(ADIE) | _BV(ADPS2) | _BV(ADPS1);
  sei();
  while (1) {
    ready = is_new;
    if (ready) {
      cli();
      is_new = 0;
      value = sample;
      sei();
      place = at;
      samples[place] = value;
      at = (place + 1) & 3;
      value = average();
      step = (value + 64) / 128;
      lamps = bars[step];
      PORTD = lamps;
      ADCSRA = _BV(ADEN) | _BV(ADSC) | _BV(ADIE) | _BV(ADPS2) | _BV(ADPS1);
    }
  }
}
