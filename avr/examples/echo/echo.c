/* A serial line on an ATmega328P: what comes is sent back in capitals, by way of a ring of eight bytes. */
#include <avr/io.h>
#include <avr/interrupt.h>

#define SIZE 8

static volatile uint8_t ring[SIZE];
static volatile uint8_t put_at, got_at;
static uint16_t lost;

ISR(USART_RX_vect)
{
  uint8_t byte, at, next, end;
  byte = UDR0;
  at = put_at;
  next = (at + 1) & (SIZE - 1);
  end = got_at;
  if (next != end) {
    ring[at] = byte;
    put_at = next;
  } else {
    lost = 1;
  }
}

static uint8_t upper(uint8_t byte)
{
  return byte >= 'a' && byte <= 'z' ? byte - 'a' + 'A' : byte;
}

int main(void)
{
  uint8_t at, end, byte, state;
  uint16_t count;
  UBRR0 = 103;
  UCSR0B = _BV(RXCIE0) | _BV(RXEN0) | _BV(TXEN0);
  DDRB = _BV(PB5);
  sei();
  while (1) {
    end = put_at;
    at = got_at;
    if (at != end) {
      byte = ring[at];
      got_at = (at + 1) & (SIZE - 1);
      byte = upper(byte);
      while (1) {
        state = UCSR0A;
        if (state & _BV(UDRE0)) {
          break;
        }
      }
      UDR0 = byte;
      count = lost;
      PORTB = count ? _BV(PB5) : 0;
    }
  }
}
