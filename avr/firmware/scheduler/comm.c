#include "sched.h"
static uint8_t send_step;
static uint8_t sum;
static uint8_t verbose;
static uint8_t diag_pos;
static uint8_t heart;
static uint8_t beat;
static const uint8_t beats[4] = { 1, 0, 1, 0 };

void task_heart(void)
{
    beat = (beat + 1) & 3;
    heart = beats[beat];
    if (heart)
        PORTB |= _BV(5);
    else
        PORTB &= ~_BV(5);
}

void task_comm(void)
{
    uint8_t c;

    if (UCSR0A & _BV(7)) {
        c = UDR0;
        if (c == 'v') {
            verbose = !verbose;
            sched_enable(T_DIAG, verbose);
        } else if (c == 'p') {
            sched_enable(T_CONTROL, 0);
        } else if (c == 'g') {
            sched_enable(T_CONTROL, 1);
        } else if (c == 'c') {
            fault = 0;
        }
    }
    if (!(UCSR0A & _BV(5)))
        return;
    switch (send_step) {
    case 0: c = 0x55; sum = 0; break;
    case 1: c = level; break;
    case 2: c = pump; break;
    case 3: c = fault; break;
    default: c = sum; break;
    }
    sum += c;
    UDR0 = c;
    if (++send_step > 4)
        send_step = 0;
}

void task_diag(void)
{
    PORTD = tasks[diag_pos].overruns;
    if (++diag_pos >= TASKS)
        diag_pos = 0;
}
