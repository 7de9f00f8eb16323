#include "thermo.h"
/* An NTC on ADC0 with a table of 17 points; tenths of a degree. */
static const int16_t ntc[17] = {
    1250, 1021, 790, 640, 530, 441, 365, 297, 235, 176, 118, 58, -5, -76, -160, -276, -500
};
static uint8_t count;
static uint16_t sum;
static int16_t temp = 200;
static uint8_t bad;
static uint8_t busy;

void sensor_start(void)
{
    count = 0;
    sum = 0;
    busy = 1;
    ADMUX = _BV(6);
    ADCSRA |= _BV(6);
}

static int16_t lookup(uint16_t raw)
{
    uint8_t i = raw >> 6;
    int16_t a;
    int16_t b;

    if (i > 15)
        i = 15;
    a = ntc[i];
    b = ntc[i + 1];
    return a + (int16_t)((int32_t)(b - a) * (raw & 63) / 64);
}

uint8_t sensor_poll(void)
{
    uint16_t raw;

    if (!busy || (ADCSRA & _BV(6)))
        return 0;
    raw = ADCW & 0x3FF;
    if (raw < 8 || raw > 1015) {
        if (bad < 10)
            bad++;
    } else {
        bad = 0;
    }
    sum += raw;
    if (++count < 8) {
        ADCSRA |= _BV(6);
        return 0;
    }
    temp = lookup(sum / 8);
    busy = 0;
    return 1;
}

int16_t sensor_temp(void)
{
    return temp + ((int16_t)setting_get(SET_OFFSET) - 10) * 5;
}

uint8_t sensor_failed(void)
{
    return bad >= 10;
}
