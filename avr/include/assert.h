/* Replaces <assert.h> of the C library: where the condition is 0, the interrupts are off and the program stays where it
 * is. Left out: the message of __ASSERT_USE_STDERR. C99 7.2 asks that the header may be included again.
 */
#ifndef __CCOMP__
#include_next <assert.h>
#else
#ifndef CCOMP_ASSERT_H
#define CCOMP_ASSERT_H
#include <ccomp/events.h>
static inline void ccomp_abort(void)
{
  irq_off();
  while (1) { }
}
#endif
#undef assert
#ifdef NDEBUG
#define assert(condition) ((void)0)
#else
#define assert(condition) ((condition) ? (void)0 : ccomp_abort())
#endif
#endif
