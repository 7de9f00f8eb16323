#ifndef SCHED_H
#define SCHED_H
#include <stdbool.h>
#include <stddef.h>
#include <stdint.h>
#include <avr/io.h>
#include <avr/interrupt.h>
typedef void (*task_fn)(void);
typedef struct {
    task_fn run;
    uint16_t period;
    uint16_t left;
    uint8_t enabled;
    uint8_t ready;
    uint8_t overruns;
} task_t;
#define TASKS 5
enum { T_HEART, T_SENSE, T_CONTROL, T_COMM, T_DIAG };
extern task_t tasks[TASKS];
void sched_tick(void);
void sched_run(void);
void sched_enable(uint8_t id, uint8_t on);
void task_heart(void);
void task_sense(void);
void task_control(void);
void task_comm(void);
void task_diag(void);
extern uint8_t level;
extern uint8_t pump;
extern uint8_t fault;
#endif
