/* What a text that ccomp gave stands on: put in front of it by `avr-gcc -include ccomp/runtime.h`.
 *
 * The intrinsics, and the events of ccomp/events.h as instructions. It takes no header of avr-libc, so that none of
 * their macros changes a name of the text; what needs one is in ccomp/runtime.c.
 */
#ifndef CCOMP_RUNTIME_H
#define CCOMP_RUNTIME_H

#define CCOMP_INLINE static __inline__ __attribute__((__always_inline__, __unused__))

CCOMP_INLINE void irq_off(void) { __asm__ __volatile__ ("cli" ::: "memory"); }
CCOMP_INLINE void irq_on(void) { __asm__ __volatile__ ("sei" ::: "memory"); }
CCOMP_INLINE unsigned char irq_save(void)
{
  unsigned char ccomp_status;
  __asm__ __volatile__ ("in %0, __SREG__\n\tcli" : "=r" (ccomp_status) :: "memory");
  return ccomp_status >> 7;
}
CCOMP_INLINE void irq_restore(unsigned char ccomp_on)
{
  if (ccomp_on)
    __asm__ __volatile__ ("sei" ::: "memory");
  else
    __asm__ __volatile__ ("cli" ::: "memory");
}

#define ccomp_wdr(value) __asm__ __volatile__ ("wdr" ::: "memory")
#define ccomp_sleep(value) __asm__ __volatile__ ("sleep" ::: "memory")
#define ccomp_nop(value) __asm__ __volatile__ ("nop" ::: "memory")
#define ccomp_barrier(value) __asm__ __volatile__ ("" ::: "memory")
#define ccomp_delay_cycles(value) __builtin_avr_delay_cycles(value)
CCOMP_INLINE void ccomp_delay_loop_1(unsigned char ccomp_count)
{
  __asm__ __volatile__ ("1: dec %0\n\tbrne 1b" : "+r" (ccomp_count));
}
CCOMP_INLINE void ccomp_delay_loop_2(unsigned int ccomp_count)
{
  __asm__ __volatile__ ("1: sbiw %0, 1\n\tbrne 1b" : "+w" (ccomp_count));
}

void ccomp_wdt_enable(unsigned char);
void ccomp_wdt_disable(unsigned char);
void ccomp_clock_prescale(unsigned char);
void ccomp_bod_disable(unsigned char);
void ccomp_eeprom_start(unsigned char);

#endif
