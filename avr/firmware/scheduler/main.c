#include <avr/wdt.h>
#include "sched.h"
ISR(TIMER0_COMPA_vect)
{
    sched_tick();
}

int main(void)
{
    DDRB = _BV(5) | _BV(1);
    TCCR0A = _BV(1);
    TCCR0B = 3;
    OCR0A = 249;
    TIMSK0 = _BV(1);
    UCSR0B = _BV(4) | _BV(3);
    sei();
    for (;;) {
        wdt_reset();
        sched_run();
    }
}
