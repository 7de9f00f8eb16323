/* Wraps <avr/cpufunc.h> of avr-libc: `nop` and the barrier for memory are events. Nothing is left out.
 */
#ifndef CCOMP_AVR_CPUFUNC_H
#define CCOMP_AVR_CPUFUNC_H
#include_next <avr/cpufunc.h>

#ifdef __CCOMP__
#include <ccomp/events.h>
#undef _NOP
#undef _MemoryBarrier
#define _NOP() CCOMP_EVENT(ccomp_nop, 0)
#define _MemoryBarrier() CCOMP_EVENT(ccomp_barrier, 0)
#endif

#endif
