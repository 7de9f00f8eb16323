/* Four ADC channels, running average over eight samples each, limits and a hex report over the UART. */
#include <stdbool.h>
#include <stddef.h>
#include <stdint.h>
#include <avr/io.h>
#include <avr/interrupt.h>
#include <avr/wdt.h>
#include <util/atomic.h>

#define CHANNELS 4
#define SAMPLES 8

static uint16_t samples[CHANNELS][SAMPLES];
static uint16_t sums[CHANNELS];
static uint8_t pos[CHANNELS];
static uint8_t fill[CHANNELS];
static uint16_t averages[CHANNELS];
static uint8_t alarm[CHANNELS];       /* 0 ok, 1 low, 2 high */

static volatile uint16_t adc_value;
static volatile uint8_t adc_channel;
static volatile uint8_t adc_ready;

static uint8_t current;
static uint8_t report_channel;
static uint8_t report_step;
static uint8_t report_divider;
static uint8_t discard = 1;

static const uint16_t low_limit[CHANNELS] = { 100, 200, 50, 0 };
static const uint16_t high_limit[CHANNELS] = { 900, 800, 1000, 1020 };

ISR(ADC_vect)
{
    adc_value = ADCW;
    adc_channel = ADMUX & 0x0F;
    adc_ready = 1;
}

static void adc_start(uint8_t channel)
{
    ADMUX = _BV(6) | channel;
    ADCSRA |= _BV(6);
}

static void filter(uint8_t ch, uint16_t v)
{
    uint8_t p = pos[ch];

    sums[ch] -= samples[ch][p];
    samples[ch][p] = v;
    sums[ch] += v;
    if (++p >= SAMPLES)
        p = 0;
    pos[ch] = p;
    if (fill[ch] < SAMPLES)
        fill[ch]++;
    averages[ch] = sums[ch] / fill[ch];
}

static void check(uint8_t ch)
{
    uint16_t a = averages[ch];

    switch (alarm[ch]) {
    case 0:
        if (a < low_limit[ch])
            alarm[ch] = 1;
        else if (a > high_limit[ch])
            alarm[ch] = 2;
        break;
    case 1:
        if (a > low_limit[ch] + 10)
            alarm[ch] = 0;
        break;
    default:
        if (a + 10 < high_limit[ch])
            alarm[ch] = 0;
        break;
    }
}

static uint8_t hex(uint8_t n)
{
    n &= 15;
    return n < 10 ? '0' + n : 'a' - 10 + n;
}

static void report(void)
{
    uint16_t a;

    if (++report_divider < 16)
        return;
    report_divider = 0;
    if (!(UCSR0A & _BV(5)))
        return;
    a = averages[report_channel];
    switch (report_step) {
    case 0: UDR0 = '0' + report_channel; break;
    case 1: UDR0 = hex(a >> 8); break;
    case 2: UDR0 = hex(a >> 4); break;
    case 3: UDR0 = hex(a); break;
    case 4: UDR0 = alarm[report_channel] == 0 ? ' ' : alarm[report_channel] == 1 ? '-' : '+'; break;
    case 5: UDR0 = '\n'; break;
    }
    if (++report_step > 5) {
        report_step = 0;
        if (++report_channel >= CHANNELS)
            report_channel = 0;
    }
}

static void alarms_out(void)
{
    uint8_t i;
    uint8_t out = 0;

    for (i = 0; i < CHANNELS; i++)
        if (alarm[i])
            out |= 1 << i;
    PORTB = out;
}

int main(void)
{
    uint8_t ch;
    uint16_t v;

    DDRB = 0x0F;
    UBRR0L = 51;
    UCSR0B = _BV(3);
    ADCSRA = _BV(7) | _BV(3) | 7;
    sei();
    adc_start(0);
    for (;;) {
        wdt_reset();
        if (adc_ready) {
            ATOMIC_BLOCK(ATOMIC_RESTORESTATE) {
                adc_ready = 0;
                v = adc_value;
                ch = adc_channel;
            }
            if (discard) {
                discard = 0;           /* the first sample after a switch of channel */
            } else if (ch < CHANNELS) {
                filter(ch, v);
                check(ch);
                alarms_out();
                if (++current >= CHANNELS)
                    current = 0;
                discard = 1;
            }
            adc_start(current);
        }
        report();
    }
}
