#include "thermo.h"
struct setting settings[SETTINGS] = {
    { 21, 10, 30, 0 },
    { 17, 5, 25, 0 },
    { 2, 1, 5, 0 },
    { 0, 0, 2, 0 },
    { 10, 0, 20, 0 },
};
uint8_t selected;
static uint8_t save_at;
static uint8_t dirty;

uint8_t setting_get(uint8_t id)
{
    return settings[id].value;
}

void setting_change(uint8_t id, int8_t by)
{
    struct setting *s = &settings[id];

    if (by > 0) {
        if (s->value < s->max) {
            s->value++;
            s->changed = 1;
            dirty = 1;
        }
    } else if (s->value > s->min) {
        s->value--;
        s->changed = 1;
        dirty = 1;
    }
}

/* One byte per call: an EEPROM write takes milliseconds. */
void settings_save(void)
{
    if (!dirty || (EECR & _BV(1)))
        return;
    if (settings[save_at].changed) {
        settings[save_at].changed = 0;
        EEARL = save_at;
        EEDR = settings[save_at].value;
        EECR |= _BV(2);
        EECR |= _BV(1);
    }
    save_at++;
    if (save_at == SETTINGS) {
        save_at = 0;
        dirty = 0;
    }
}
