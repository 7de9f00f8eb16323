/* Replaces <avr/wdt.h> of avr-libc: `wdr` and the timed writes to the watchdog's register are events, which avr-libc's
 * own instructions are put in place of again. WDTO_* are as avr-libc has them. Nothing is left out.
 */
#ifndef CCOMP_AVR_WDT_H
#define CCOMP_AVR_WDT_H
#ifndef __CCOMP__
#include_next <avr/wdt.h>
#else
#include <avr/io.h>
#include <stdint.h>
#include <ccomp/events.h>
#define wdt_reset() CCOMP_EVENT(ccomp_wdr, 0)
#define wdt_enable(value) CCOMP_EVENT(ccomp_wdt_enable, value)
#define wdt_disable() CCOMP_EVENT(ccomp_wdt_disable, 0)
#define WDTO_15MS 0
#define WDTO_30MS 1
#define WDTO_60MS 2
#define WDTO_120MS 3
#define WDTO_250MS 4
#define WDTO_500MS 5
#define WDTO_1S 6
#define WDTO_2S 7
#ifdef WDP3
#define WDTO_4S 8
#define WDTO_8S 9
#endif
#endif
#endif
