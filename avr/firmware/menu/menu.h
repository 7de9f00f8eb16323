#ifndef MENU_H
#define MENU_H
#include <stdbool.h>
#include <stddef.h>
#include <stdint.h>
#include <avr/io.h>
#include <avr/interrupt.h>
struct item {
    const char *label;
    void (*enter)(void);
    uint8_t *value;
    uint8_t max;
};
#define ITEMS 6
extern const struct item items[ITEMS];
extern uint8_t contrast;
extern uint8_t backlight;
extern uint8_t language;
extern uint8_t alarm_on;
void screen_clear(void);
void screen_text(const char *s);
void screen_number(uint8_t v);
void action_reset(void);
void action_about(void);
#endif
