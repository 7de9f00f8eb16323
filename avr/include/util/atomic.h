/* Replaces <util/atomic.h> of avr-libc: a block is guarded by the intrinsics. `break` and `continue` in a block leave
 * the block, and the interrupts are then as they were. A `return` out of a block is refused by the driver ccomp-avr,
 * since nothing would restore them; the subset has no `goto`.
 */
#ifndef CCOMP_UTIL_ATOMIC_H
#define CCOMP_UTIL_ATOMIC_H
#ifndef __CCOMP__
#include_next <util/atomic.h>
#else
#include <avr/io.h>
#include <avr/interrupt.h>
#include <ccomp/events.h>
/* The inner loop is there so that the end below is reached after `break` too. */
#define CCOMP_GUARDED(kept, begun, end) \
  for (unsigned char ccomp_kept = kept, ccomp_outer = begun; ccomp_outer; ccomp_outer = 0, end) \
    for (unsigned char ccomp_inner = 1; ccomp_inner; ccomp_inner = 0)
#define ATOMIC_BLOCK(type) CCOMP_##type
#define NONATOMIC_BLOCK(type) CCOMP_##type
#define CCOMP_ATOMIC_RESTORESTATE CCOMP_GUARDED(irq_save(), 1, irq_restore(ccomp_kept))
#define CCOMP_ATOMIC_FORCEON CCOMP_GUARDED(irq_save(), 1, irq_on())
#define CCOMP_NONATOMIC_RESTORESTATE CCOMP_GUARDED(irq_save(), (irq_on(), 1), irq_restore(ccomp_kept))
#define CCOMP_NONATOMIC_FORCEOFF CCOMP_GUARDED(irq_save(), (irq_on(), 1), irq_off())
#endif
#endif
