/* Wraps <avr/sleep.h> of avr-libc: the instruction `sleep`, and the timed writes that switch the brown-out detector off,
 * are events. The modes and the enable bit are used as avr-libc has them. Nothing is left out.
 */
#ifndef CCOMP_AVR_SLEEP_H
#define CCOMP_AVR_SLEEP_H
#include_next <avr/sleep.h>

#ifdef __CCOMP__
#include <ccomp/events.h>
#undef sleep_cpu
#define sleep_cpu() CCOMP_EVENT(ccomp_sleep, 0)
#undef sleep_mode
#define sleep_mode() do { sleep_enable(); sleep_cpu(); sleep_disable(); } while (0)
#ifdef sleep_bod_disable
#undef sleep_bod_disable
#define sleep_bod_disable() CCOMP_EVENT(ccomp_bod_disable, 0)
#endif
#endif

#endif
