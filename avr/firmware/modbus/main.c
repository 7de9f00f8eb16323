#include <avr/wdt.h>
#include "modbus.h"
static uint8_t divider;

static void outputs(void)
{
    uint8_t i;
    uint8_t out = 0;

    for (i = 0; i < COILS; i++)
        if (coils[i])
            out |= 1 << i;
    PORTB = out;
}

static void inputs(void)
{
    if (++divider < 100)
        return;
    divider = 0;
    holding[0] = ADCW;
    holding[1] = PIND;
    ADCSRA |= _BV(6);
}

int main(void)
{
    DDRB = 0xFF;
    link_init();
    modbus_set_address(PINC & 0x0F);
    sei();
    for (;;) {
        wdt_reset();
        if (link_frame()) {
            link_send(modbus_handle());
            outputs();
        }
        inputs();
    }
}
