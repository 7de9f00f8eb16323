/* Wraps <avr/interrupt.h> of avr-libc: `sei` and `cli` are the intrinsics irq_on and irq_off, and handlers are
 * functions with the attribute `signal`.
 *
 * EMPTY_INTERRUPT is a handler with an empty body, and wants the semicolon behind it that avr-libc's own examples have.
 * Left out, and refused by name: ISR_NOBLOCK, ISR_NAKED, ISR_ALIASOF, ISR_ALIAS and reti.
 */
#ifndef CCOMP_AVR_INTERRUPT_H
#define CCOMP_AVR_INTERRUPT_H
#include_next <avr/interrupt.h>

#ifdef __CCOMP__
#include <ccomp/events.h>
#undef sei
#undef cli
#undef ISR
#undef SIGNAL
#undef EMPTY_INTERRUPT
#undef ISR_BLOCK
#undef ISR_NOBLOCK
#undef ISR_NAKED
#undef ISR_ALIASOF
#undef ISR_ALIAS
#undef reti
#define sei() irq_on()
#define cli() irq_off()
#define ISR(vector, ...) \
  void vector(void) __attribute__((signal, used, externally_visible)) __VA_ARGS__; void vector(void)
#define SIGNAL(vector) ISR(vector)
#define EMPTY_INTERRUPT(vector) ISR(vector) { } void vector(void)
#define ISR_BLOCK
#define ISR_NOBLOCK __attribute__((ISR_NOBLOCK_is_outside))
#define ISR_NAKED __attribute__((ISR_NAKED_is_outside))
#define ISR_ALIASOF(vector) __attribute__((ISR_ALIASOF_is_outside))
#define ISR_ALIAS(vector, target) void vector(void) __attribute__((ISR_ALIAS_is_outside))
#define reti() reti_is_outside()
#endif

#endif
