#include <avr/wdt.h>
#include "menu.h"
enum { BROWSE, EDIT, INFO };
enum { EV_NONE, EV_LEFT, EV_RIGHT, EV_OK, EV_BACK };

static void state_browse(uint8_t ev);
static void state_edit(uint8_t ev);
static void state_info(uint8_t ev);

static void (*state)(uint8_t) = state_browse;
static uint8_t cursor;
static uint8_t edit_value;
static uint8_t redraw = 1;
static uint8_t timeout;
static uint8_t key_last;
static uint8_t key_debounce;
static volatile uint8_t tick;
static uint8_t in_alarm;

ISR(TIMER0_COMPA_vect)
{
    tick = 1;
}

static uint8_t get_event(void)
{
    uint8_t k = ~PINC & 0x0F;
    uint8_t ev = EV_NONE;

    if (key_debounce) {
        key_debounce--;
        return EV_NONE;
    }
    if (k != key_last) {
        key_debounce = 3;
        if (k & 1)
            ev = EV_LEFT;
        else if (k & 2)
            ev = EV_RIGHT;
        else if (k & 4)
            ev = EV_OK;
        else if (k & 8)
            ev = EV_BACK;
        key_last = k;
    }
    return ev;
}

static void draw(void)
{
    screen_clear();
    screen_text(items[cursor].label);
    if (items[cursor].value) {
        UDR0 = state == state_edit ? '=' : ':';
        screen_number(state == state_edit ? edit_value : *items[cursor].value);
    }
}

static void state_browse(uint8_t ev)
{
    switch (ev) {
    case EV_LEFT:
        cursor = cursor == 0 ? ITEMS - 1 : cursor - 1;
        redraw = 1;
        break;
    case EV_RIGHT:
        cursor = cursor == ITEMS - 1 ? 0 : cursor + 1;
        redraw = 1;
        break;
    case EV_OK:
        if (items[cursor].enter) {
            items[cursor].enter();
            state = state_info;
        } else {
            edit_value = *items[cursor].value;
            state = state_edit;
            redraw = 1;
        }
        break;
    }
}

static void state_edit(uint8_t ev)
{
    switch (ev) {
    case EV_LEFT:
        if (edit_value > 0)
            edit_value--;
        redraw = 1;
        break;
    case EV_RIGHT:
        if (edit_value < items[cursor].max)
            edit_value++;
        redraw = 1;
        break;
    case EV_OK:
        *items[cursor].value = edit_value;
        state = state_browse;
        redraw = 1;
        break;
    case EV_BACK:
        state = state_browse;
        redraw = 1;
        break;
    }
}

static void state_info(uint8_t ev)
{
    if (ev != EV_NONE) {
        state = state_browse;
        redraw = 1;
    }
}

int main(void)
{
    uint8_t ev;

    DDRB = 0xFF;
    TCCR0B = 5;
    OCR0A = 155;
    TIMSK0 = _BV(1);
    UCSR0B = _BV(3);
    sei();
    for (;;) {
        wdt_reset();
        if (!tick)
            continue;
        tick = 0;
        ev = get_event();
        if (ev != EV_NONE) {
            timeout = 0;
            state(ev);
        } else if (timeout < 200) {
            timeout++;
        } else if (state != state_browse) {
            state = state_browse;
            redraw = 1;
        }
        if (redraw) {
            redraw = 0;
            draw();
        }
        OCR0B = contrast << 4;
        in_alarm = alarm_on && (PIND & 1);
        PORTB = (backlight ? 1 : 0) | (in_alarm ? 2 : 0) | language << 2;
    }
}
