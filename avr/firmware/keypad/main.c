/* Door lock: 4x3 keypad, PIN of four digits, lock-out after wrong entries, change of PIN. */
#include <stdbool.h>
#include <stddef.h>
#include <stdint.h>
#include <avr/io.h>
#include <avr/interrupt.h>
#include <avr/wdt.h>

#define PIN_LEN 4
enum { L_LOCKED, L_OPEN, L_LOCKOUT, L_NEW_PIN, L_CONFIRM };
enum { K_STAR = 10, K_HASH = 11, K_NONE = 255 };

static uint8_t pin[PIN_LEN] = { 1, 2, 3, 4 };
static uint8_t entry[PIN_LEN];
static uint8_t fresh[PIN_LEN];
static uint8_t entered;
static uint8_t lock;
static uint8_t wrong;
static uint16_t lockout_time;
static uint16_t open_time;
static uint8_t row;
static uint8_t last_key = K_NONE;
static uint8_t stable;
static uint8_t reported;
static uint8_t beep;
static uint8_t led_time;
static volatile uint8_t tick;

static const uint8_t codes[12] = { 1, 2, 3, 4, 5, 6, 7, 8, 9, K_STAR, 0, K_HASH };

ISR(TIMER0_COMPA_vect)
{
    tick = 1;
}

static uint8_t scan(void)
{
    uint8_t cols;
    uint8_t found = K_NONE;
    uint8_t c;

    for (row = 0; row < 4; row++) {
        PORTB = ~(1 << row) & 0x0F;
        cols = ~PINC & 7;
        for (c = 0; c < 3; c++)
            if (cols & (1 << c))
                found = codes[row * 3 + c];
    }
    if (found != last_key) {
        last_key = found;
        stable = 0;
        reported = 0;
        return K_NONE;
    }
    if (stable < 4) {
        stable++;
        return K_NONE;
    }
    if (reported)
        return K_NONE;
    reported = 1;
    return found;
}

static bool match(void)
{
    uint8_t i;
    uint8_t diff = 0;

    for (i = 0; i < PIN_LEN; i++)
        diff |= entry[i] ^ pin[i];
    return diff == 0 && entered == PIN_LEN;
}

static void clear_entry(void)
{
    uint8_t i;

    for (i = 0; i < PIN_LEN; i++)
        entry[i] = 0;
    entered = 0;
}

static void digit(uint8_t k)
{
    if (entered < PIN_LEN) {
        entry[entered] = k;
        entered++;
        beep = 2;
    }
}

static void submit(void)
{
    uint8_t i;

    switch (lock) {
    case L_LOCKED:
        if (match()) {
            lock = L_OPEN;
            open_time = 500;
            wrong = 0;
            beep = 10;
        } else if (++wrong >= 3) {
            lock = L_LOCKOUT;
            lockout_time = 6000;
            wrong = 0;
            beep = 50;
        } else {
            beep = 20;
        }
        break;
    case L_OPEN:
        lock = L_NEW_PIN;
        break;
    case L_NEW_PIN:
        if (entered == PIN_LEN) {
            for (i = 0; i < PIN_LEN; i++)
                fresh[i] = entry[i];
            lock = L_CONFIRM;
        } else {
            lock = L_OPEN;
        }
        break;
    case L_CONFIRM:
        for (i = 0; i < PIN_LEN; i++)
            if (fresh[i] != entry[i])
                break;
        if (i == PIN_LEN) {
            for (i = 0; i < PIN_LEN; i++)
                pin[i] = fresh[i];
            beep = 10;
        } else {
            beep = 30;
        }
        lock = L_LOCKED;
        break;
    }
    clear_entry();
}

static void times(void)
{
    if (beep)
        beep--;
    if (lock == L_OPEN && --open_time == 0)
        lock = L_LOCKED;
    if (lock == L_LOCKOUT && --lockout_time == 0)
        lock = L_LOCKED;
    led_time = (led_time + 1) & 63;
}

static void outputs(void)
{
    uint8_t out = 0;

    if (lock == L_OPEN || lock == L_NEW_PIN || lock == L_CONFIRM)
        out |= 1;
    if (beep)
        out |= 2;
    if (lock == L_LOCKOUT && (led_time & 8))
        out |= 4;
    if (lock == L_LOCKED && led_time == 0)
        out |= 8;
    PORTD = out;
}

int main(void)
{
    uint8_t k;

    DDRB = 0x0F;
    DDRD = 0x0F;
    TCCR0B = 5;
    OCR0A = 77;
    TIMSK0 = _BV(1);
    sei();
    for (;;) {
        wdt_reset();
        if (!tick)
            continue;
        tick = 0;
        k = scan();
        if (k != K_NONE && lock != L_LOCKOUT) {
            if (k == K_STAR)
                clear_entry();
            else if (k == K_HASH)
                submit();
            else
                digit(k);
        }
        times();
        outputs();
    }
}
