#include <avr/wdt.h>
#include "thermo.h"
static volatile uint8_t ticks;
static volatile uint8_t second_flag;
static uint8_t prescale;
static uint8_t output;
static uint16_t min_off_timer;
static uint8_t key_last;
static uint8_t key_stable;
static uint8_t key_count;
static uint8_t menu_timer;
static bool night;
static uint8_t show;

ISR(TIMER0_COMPA_vect)
{
    ticks++;
    if (++prescale == 100) {
        prescale = 0;
        second_flag = 1;
    }
}

static void regulate(void)
{
    int16_t t = sensor_temp();
    int16_t goal = (int16_t)setting_get(night ? SET_NIGHT : SET_DAY) * 10;
    int16_t hyst = (int16_t)setting_get(SET_HYST) * 5;
    uint8_t mode = setting_get(SET_MODE);

    if (sensor_failed()) {
        output = OUT_OFF;
        return;
    }
    switch (output) {
    case OUT_OFF:
        if (min_off_timer)
            break;
        if (mode != 1 && t < goal - hyst)
            output = OUT_HEAT;
        else if (mode != 0 && t > goal + hyst)
            output = OUT_COOL;
        break;
    case OUT_HEAT:
        if (t >= goal + hyst) {
            output = OUT_OFF;
            min_off_timer = 180;
        }
        break;
    case OUT_COOL:
        if (t <= goal - hyst) {
            output = OUT_OFF;
            min_off_timer = 300;
        }
        break;
    }
}

static void keys(void)
{
    uint8_t raw = ~PIND & 0x0F;
    uint8_t edge;

    if (raw != key_last) {
        key_last = raw;
        key_count = 0;
        return;
    }
    if (key_count < 3) {
        key_count++;
        return;
    }
    edge = raw & ~key_stable;
    key_stable = raw;
    if (edge & 1) {
        selected = selected + 1;
        if (selected >= SETTINGS)
            selected = 0;
        menu_timer = 10;
    }
    if (edge & 2) {
        setting_change(selected, 1);
        menu_timer = 10;
    }
    if (edge & 4) {
        setting_change(selected, -1);
        menu_timer = 10;
    }
    if (edge & 8)
        night = !night;
}

static void outputs(void)
{
    PORTB = (output == OUT_HEAT ? _BV(0) : 0) | (output == OUT_COOL ? _BV(1) : 0) |
            (night ? _BV(2) : 0) | (sensor_failed() ? _BV(3) : 0);
}

static void display(void)
{
    int16_t v;

    if (menu_timer)
        v = setting_get(selected);
    else
        v = sensor_temp();
    show = v < 0 ? 0 : v > 250 ? 250 : v;
    PORTC = show;
}

int main(void)
{
    DDRB = 0x0F;
    DDRC = 0xFF;
    TCCR0B = 5;
    OCR0A = 77;
    TIMSK0 = _BV(1);
    ADCSRA = _BV(7) | 7;
    sei();
    for (;;) {
        wdt_reset();
        if (ticks >= 2) {
            ticks = 0;
            keys();
            settings_save();
            if (sensor_poll()) {
                regulate();
                outputs();
            }
        }
        if (second_flag) {
            second_flag = 0;
            if (min_off_timer)
                min_off_timer--;
            if (menu_timer)
                menu_timer--;
            sensor_start();
            display();
        }
    }
}
