#ifndef THERMO_H
#define THERMO_H
#include <stdbool.h>
#include <stddef.h>
#include <stdint.h>
#include <avr/io.h>
#include <avr/interrupt.h>
enum { OUT_OFF, OUT_HEAT, OUT_COOL };
enum { SET_DAY, SET_NIGHT, SET_HYST, SET_MODE, SET_OFFSET, SETTINGS };
struct setting {
    uint8_t value;
    uint8_t min;
    uint8_t max;
    uint8_t changed;
};
extern struct setting settings[SETTINGS];
extern uint8_t selected;
uint8_t setting_get(uint8_t id);
void setting_change(uint8_t id, int8_t by);
void settings_save(void);
void sensor_start(void);
uint8_t sensor_poll(void);
int16_t sensor_temp(void);
uint8_t sensor_failed(void);
#endif
