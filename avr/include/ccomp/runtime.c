/* Timed sequences of writes, which the compiler must not take apart: as avr-libc has them for the chip.
 * Compiled beside a text that uses one of them, with avr-libc's own headers.
 */
#include <avr/io.h>

#ifdef CCOMP_USES_WDT
#include <avr/wdt.h>
void ccomp_wdt_enable(unsigned char value) { wdt_enable(value); }
void ccomp_wdt_disable(unsigned char value) { (void)value; wdt_disable(); }
#endif

#ifdef CCOMP_USES_CLOCK
#include <avr/power.h>
void ccomp_clock_prescale(unsigned char value) { clock_prescale_set((clock_div_t)value); }
#endif

#ifdef CCOMP_USES_BOD
#include <avr/sleep.h>
void ccomp_bod_disable(unsigned char value) { (void)value; sleep_bod_disable(); }
#endif

#ifdef CCOMP_USES_EEPROM
#if defined(EEMPE)
#define CCOMP_MASTER EEMPE
#define CCOMP_WRITE EEPE
#else
#define CCOMP_MASTER EEMWE
#define CCOMP_WRITE EEWE
#endif
void ccomp_eeprom_start(unsigned char value)
{
  unsigned char status;
  (void)value;
  __asm__ __volatile__ (
    "in %0, __SREG__\n\tcli\n\tsbi %1, %2\n\tsbi %1, %3\n\tout __SREG__, %0"
    : "=&r" (status) : "I" (_SFR_IO_ADDR(EECR)), "I" (CCOMP_MASTER), "I" (CCOMP_WRITE) : "memory");
}
#endif
