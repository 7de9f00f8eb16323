/* Three debounced buttons and a mode LED on an ATtiny85.
 * Button 0 steps through the modes, button 1 toggles power, button 2 is "faster" (auto-repeat). */
#include <stdbool.h>
#include <stddef.h>
#include <stdint.h>
#include <avr/io.h>
#include <avr/interrupt.h>
#include <avr/wdt.h>

enum { MODE_OFF, MODE_ON, MODE_SLOW, MODE_FAST, MODE_SOS, MODE_COUNT };
enum { KEY_UP, KEY_EDGE, KEY_DOWN, KEY_REPEAT };

#define KEYS 3
#define DEBOUNCE_TICKS 4
#define HOLD_TICKS 50
#define REPEAT_TICKS 10

static volatile uint8_t tick_flag;

static uint8_t key_state[KEYS];
static uint8_t key_count[KEYS];
static uint8_t pressed;          /* bit per key, set for one turn */

static uint8_t mode = MODE_SLOW;
static uint8_t saved_mode;
static bool power = true;
static uint8_t blink_count;
static uint8_t blink_period = 25;
static uint8_t led;
static uint8_t sos_pos;

static const uint8_t sos_pattern[18] = {
    1, 0, 1, 0, 1, 0,  3, 0, 3, 0, 3, 0,  1, 0, 1, 0, 1, 7
};

ISR(TIMER0_COMPA_vect)
{
    tick_flag = 1;
}

static void led_set(uint8_t on)
{
    led = on ? 1 : 0;
    if (led)
        PORTB |= _BV(4);
    else
        PORTB &= ~_BV(4);
}

static void keys_scan(void)
{
    uint8_t i;
    uint8_t raw = ~PINB & 0x07;

    pressed = 0;
    for (i = 0; i < KEYS; i++) {
        uint8_t down = (raw >> i) & 1;
        switch (key_state[i]) {
        case KEY_UP:
            if (down) {
                key_state[i] = KEY_EDGE;
                key_count[i] = 0;
            }
            break;
        case KEY_EDGE:
            if (!down) {
                key_state[i] = KEY_UP;
            } else if (++key_count[i] >= DEBOUNCE_TICKS) {
                key_state[i] = KEY_DOWN;
                key_count[i] = 0;
                pressed |= 1 << i;
            }
            break;
        case KEY_DOWN:
            if (!down) {
                key_state[i] = KEY_UP;
            } else if (++key_count[i] >= HOLD_TICKS) {
                key_state[i] = KEY_REPEAT;
                key_count[i] = 0;
            }
            break;
        case KEY_REPEAT:
            if (!down) {
                key_state[i] = KEY_UP;
            } else if (++key_count[i] >= REPEAT_TICKS) {
                key_count[i] = 0;
                if (i == 2)
                    pressed |= 1 << i;
            }
            break;
        }
    }
}

static void keys_act(void)
{
    if (pressed & 1) {
        if (power) {
            mode++;
            if (mode >= MODE_COUNT)
                mode = MODE_ON;
            blink_count = 0;
            sos_pos = 0;
        }
    }
    if (pressed & 2) {
        power = !power;
        if (!power) {
            saved_mode = mode;
            mode = MODE_OFF;
        } else {
            mode = saved_mode;
        }
    }
    if (pressed & 4) {
        if (blink_period > 5)
            blink_period -= 5;
        else
            blink_period = 50;
    }
}

static void led_run(void)
{
    switch (mode) {
    case MODE_OFF:
        led_set(0);
        break;
    case MODE_ON:
        led_set(1);
        break;
    case MODE_SLOW:
        if (++blink_count >= blink_period) {
            blink_count = 0;
            led_set(!led);
        }
        break;
    case MODE_FAST:
        if (++blink_count >= blink_period / 2) {
            blink_count = 0;
            led_set(!led);
        }
        break;
    case MODE_SOS:
        if (blink_count > 0) {
            blink_count--;
        } else {
            blink_count = sos_pattern[sos_pos] * 4;
            led_set(!(sos_pos & 1));
            if (++sos_pos >= 18)
                sos_pos = 0;
        }
        break;
    }
}

int main(void)
{
    DDRB = _BV(4);
    PORTB = 0x07;
    TCCR0A = _BV(1);
    TCCR0B = 5;
    OCR0A = 77;
    TIMSK = _BV(4);
    sei();
    for (;;) {
        wdt_reset();
        if (!tick_flag)
            continue;
        tick_flag = 0;
        keys_scan();
        keys_act();
        led_run();
    }
}
