/* Instructions that the subset of C has no form for, as events that stay in their order.
 *
 * Where ccomp reads (__CCOMP__ is defined), each of them is a device, and the instruction is a write to it. Behind
 * `ccomp pack` the driver ccomp-avr turns `DEVICE = VALUE;` into `DEVICE(VALUE);`, which ccomp/runtime.h has.
 * Where the compiler reads the sources themselves, the headers beside this one pass avr-libc's on as they are, and
 * this one declares nothing.
 */
#ifndef CCOMP_EVENTS_H
#define CCOMP_EVENTS_H

#ifdef __CCOMP__
void irq_off(void);
void irq_on(void);
unsigned char irq_save(void);
void irq_restore(unsigned char);

extern volatile unsigned char ccomp_wdr;             /* wdr */
extern volatile unsigned char ccomp_sleep;           /* sleep */
extern volatile unsigned char ccomp_nop;             /* nop */
extern volatile unsigned char ccomp_barrier;         /* no instruction: a place where all of memory is up to date */
extern volatile unsigned long ccomp_delay_cycles;    /* so many cycles pass */
extern volatile unsigned char ccomp_delay_loop_1;    /* a loop of three cycles, so many times; 256 times for 0 */
extern volatile unsigned int ccomp_delay_loop_2;     /* a loop of four cycles, so many times; 65,536 times for 0 */
extern volatile unsigned char ccomp_wdt_enable;      /* the timed writes that set the watchdog's time */
extern volatile unsigned char ccomp_wdt_disable;     /* those that switch it off */
extern volatile unsigned char ccomp_clock_prescale;  /* those that set the clock's divider */
extern volatile unsigned char ccomp_bod_disable;     /* those that switch the brown-out detector off in sleep */
extern volatile unsigned char ccomp_eeprom_start;    /* those that begin a write of the EEPROM */
#define CCOMP_EVENT(device, value) (device = (value))
#endif

#endif
