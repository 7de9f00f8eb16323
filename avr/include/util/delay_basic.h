/* Replaces <util/delay_basic.h> of avr-libc: its two loops are events with their counts. Nothing is left out.
 */
#ifndef CCOMP_UTIL_DELAY_BASIC_H
#define CCOMP_UTIL_DELAY_BASIC_H
#ifndef __CCOMP__
#include_next <util/delay_basic.h>
#else
#include <ccomp/events.h>
#define _delay_loop_1(count) CCOMP_EVENT(ccomp_delay_loop_1, count)
#define _delay_loop_2(count) CCOMP_EVENT(ccomp_delay_loop_2, count)
#endif
#endif
