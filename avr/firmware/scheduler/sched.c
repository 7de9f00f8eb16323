#include <util/atomic.h>
#include "sched.h"
task_t tasks[TASKS] = {
    { task_heart, 500, 0, 1, 0, 0 },
    { task_sense, 20, 0, 1, 0, 0 },
    { task_control, 50, 0, 1, 0, 0 },
    { task_comm, 5, 0, 1, 0, 0 },
    { task_diag, 1000, 0, 0, 0, 0 },
};

/* From the timer interrupt. */
void sched_tick(void)
{
    uint8_t i;

    for (i = 0; i < TASKS; i++) {
        task_t *t = &tasks[i];
        if (!t->enabled)
            continue;
        if (t->left == 0) {
            t->left = t->period - 1;
            if (t->ready) {
                if (t->overruns < 255)
                    t->overruns++;
            }
            t->ready = 1;
        } else {
            t->left--;
        }
    }
}

void sched_run(void)
{
    uint8_t i;
    uint8_t due;

    for (i = 0; i < TASKS; i++) {
        ATOMIC_BLOCK(ATOMIC_RESTORESTATE) {
            due = tasks[i].ready;
            tasks[i].ready = 0;
        }
        if (due) {
            tasks[i].run();
            return;
        }
    }
}

void sched_enable(uint8_t id, uint8_t on)
{
    ATOMIC_BLOCK(ATOMIC_RESTORESTATE) {
        tasks[id].enabled = on ? 1 : 0;
        tasks[id].ready = 0;
    }
}
