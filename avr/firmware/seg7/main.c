/* Four multiplexed 7-segment digits: count-down kitchen timer with two buttons and a buzzer. */
#include <stdbool.h>
#include <stddef.h>
#include <stdint.h>
#include <avr/io.h>
#include <avr/interrupt.h>
#include <avr/wdt.h>
#include <util/atomic.h>

enum { EDIT, RUN, PAUSE, ALARM };

static uint8_t digits[4];
static uint8_t colon;
static uint8_t active_digit;
static uint8_t brightness = 4;
static uint8_t subcount;
static volatile uint8_t tick10;

static uint8_t state;
static uint8_t minutes;
static uint8_t seconds;
static uint8_t hundredths;
static uint8_t blink;
static uint8_t keys_old;
static uint8_t key_time;
static uint8_t beeps;
static uint8_t beep_time;

static const uint8_t font[16] = {
    0x3F, 0x06, 0x5B, 0x4F, 0x66, 0x6D, 0x7D, 0x07, 0x7F, 0x6F, 0x77, 0x7C, 0x39, 0x5E, 0x79, 0x71
};

ISR(TIMER2_COMPA_vect)
{
    uint8_t seg;

    PORTC = 0;
    if (subcount < brightness) {
        seg = font[digits[active_digit] & 15];
        if (colon && active_digit == 1)
            seg |= 0x80;
        PORTD = seg;
        PORTC = 1 << active_digit;
    }
    if (++subcount >= 8) {
        subcount = 0;
        active_digit = (active_digit + 1) & 3;
        if (active_digit == 0)
            tick10 = 1;
    }
}

static void show(uint8_t hi, uint8_t lo)
{
    ATOMIC_BLOCK(ATOMIC_RESTORESTATE) {
        digits[0] = hi / 10;
        digits[1] = hi % 10;
        digits[2] = lo / 10;
        digits[3] = lo % 10;
    }
}

static void set_colon(uint8_t on)
{
    colon = on ? 1 : 0;
}

static void one_second(void)
{
    if (seconds > 0) {
        seconds--;
    } else if (minutes > 0) {
        minutes--;
        seconds = 59;
    } else {
        state = ALARM;
        beeps = 6;
        beep_time = 0;
    }
}

static void on_key(uint8_t k)
{
    if (state == ALARM) {
        state = EDIT;
        PORTB &= ~_BV(5);
        return;
    }
    if (k & 1) {
        if (state == EDIT || state == PAUSE) {
            if (minutes || seconds)
                state = RUN;
        } else {
            state = PAUSE;
        }
    }
    if (k & 2) {
        if (state == PAUSE) {
            state = EDIT;
            minutes = 0;
            seconds = 0;
        } else if (state == EDIT) {
            if (++minutes > 99)
                minutes = 0;
        }
    }
    if (k & 4) {
        if (state == EDIT) {
            seconds += 10;
            if (seconds >= 60)
                seconds = 0;
        } else {
            brightness = brightness == 8 ? 1 : brightness + 1;
        }
    }
}

static void keys(void)
{
    uint8_t now = ~PINB & 7;

    if (now != keys_old) {
        key_time = 0;
        keys_old = now;
    } else if (key_time < 3) {
        if (++key_time == 3 && now)
            on_key(now);
    }
}

static void buzzer(void)
{
    if (state != ALARM)
        return;
    if (beep_time) {
        beep_time--;
        return;
    }
    beep_time = 25;
    if (beeps & 1)
        PORTB |= _BV(5);
    else
        PORTB &= ~_BV(5);
    if (beeps)
        beeps--;
    else
        state = EDIT;
}

int main(void)
{
    DDRB = _BV(5);
    DDRC = 0x0F;
    DDRD = 0xFF;
    OCR2A = 77;
    TCCR2B = 4;
    TIMSK2 = _BV(1);
    sei();
    for (;;) {
        wdt_reset();
        if (!tick10)
            continue;
        tick10 = 0;
        keys();
        buzzer();
        if (state == RUN) {
            if (++hundredths >= 100) {
                hundredths = 0;
                one_second();
            }
            blink = hundredths < 50;
        } else {
            if (++blink >= 40)
                blink = 0;
        }
        if (state == RUN)
            set_colon(blink);
        else
            set_colon(blink < 20);
        show(minutes, seconds);
    }
}
