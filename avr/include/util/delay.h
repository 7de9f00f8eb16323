/* Replaces <util/delay.h> of avr-libc: a delay is an event with its number of cycles, worked out in integers, rounded up
 * as avr-libc does where nothing is said. So F_CPU and the time have to be integers: 8000000UL, not 8e6; and
 * _delay_us(500), not _delay_ms(0.5).
 *
 * Left out: __DELAY_ROUND_DOWN__, __DELAY_ROUND_CLOSEST__, __DELAY_BACKWARD_COMPATIBLE__; a time that is no constant is
 * refused by the compiler behind ccomp, as by avr-libc.
 */
#ifndef CCOMP_UTIL_DELAY_H
#define CCOMP_UTIL_DELAY_H
#ifndef __CCOMP__
#include_next <util/delay.h>
#else
#include <util/delay_basic.h>
#ifndef F_CPU
#warning "F_CPU not defined for <util/delay.h>"
#define F_CPU 1000000UL
#endif
#if defined(__DELAY_ROUND_DOWN__) || defined(__DELAY_ROUND_CLOSEST__) || defined(__DELAY_BACKWARD_COMPATIBLE__)
#error "ccomp: <util/delay.h> rounds up alone"
#endif
#define CCOMP_CYCLES(time, in_a_second) \
  ((unsigned long)(((unsigned long long)(F_CPU) * (time) + (in_a_second - 1)) / in_a_second))
#define _delay_us(time) CCOMP_EVENT(ccomp_delay_cycles, CCOMP_CYCLES(time, 1000000ULL))
#define _delay_ms(time) CCOMP_EVENT(ccomp_delay_cycles, CCOMP_CYCLES(time, 1000ULL))
#endif
#endif
