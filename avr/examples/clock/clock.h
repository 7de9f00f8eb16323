#ifndef CLOCK_H
#define CLOCK_H
#include <stdint.h>
void clock_start(void);
uint8_t clock_second(void);
#endif
