#include "sched.h"
/* A water tank: level by four float switches, a pump with dry-run protection. */
enum { PUMP_OFF, PUMP_STARTING, PUMP_ON, PUMP_LOCKED };
enum { FAULT_NONE, FAULT_SENSOR, FAULT_DRY, FAULT_STUCK };
uint8_t level;
uint8_t pump;
uint8_t fault;
static uint8_t raw_last;
static uint8_t same;
static uint8_t start_time;
static uint16_t dry_time;
static uint16_t lock_time;
static uint16_t run_time;

void task_sense(void)
{
    uint8_t raw = PINC & 0x0F;

    if (raw != raw_last) {
        raw_last = raw;
        same = 0;
        return;
    }
    if (same < 5) {
        same++;
        return;
    }
    switch (raw) {
    case 0x0: level = 0; break;
    case 0x1: level = 1; break;
    case 0x3: level = 2; break;
    case 0x7: level = 3; break;
    case 0xF: level = 4; break;
    default: fault = FAULT_SENSOR; break;
    }
}

void task_control(void)
{
    uint8_t flow = PIND & _BV(3);

    switch (pump) {
    case PUMP_OFF:
        if (fault == FAULT_NONE && level <= 1) {
            pump = PUMP_STARTING;
            start_time = 0;
        }
        break;
    case PUMP_STARTING:
        if (++start_time >= 40) {
            pump = PUMP_ON;
            dry_time = 0;
            run_time = 0;
        }
        break;
    case PUMP_ON:
        run_time++;
        if (level >= 4)
            pump = PUMP_OFF;
        if (flow)
            dry_time = 0;
        else if (++dry_time > 100) {
            fault = FAULT_DRY;
            pump = PUMP_LOCKED;
            lock_time = 1200;
        }
        if (run_time > 12000) {
            fault = FAULT_STUCK;
            pump = PUMP_LOCKED;
            lock_time = 6000;
        }
        break;
    case PUMP_LOCKED:
        if (--lock_time == 0) {
            pump = PUMP_OFF;
            fault = FAULT_NONE;
        }
        break;
    }
    if (pump == PUMP_STARTING || pump == PUMP_ON)
        PORTB |= _BV(1);
    else
        PORTB &= ~_BV(1);
}
