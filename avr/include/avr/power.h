/* Replaces <avr/power.h> of avr-libc: parts of the chip are switched by the bits of PRR, PRR0 and PRR1 that its header
 * tells (__AVR_HAVE_PRR*), and the clock's divider by an event.
 *
 * Left out: power_all_enable and power_all_disable, parts that are not below (XMEGA's, LCD, PSC, CAN, LIN), and
 * clock_prescale_get on chips without CLKPR.
 */
#ifndef CCOMP_AVR_POWER_H
#define CCOMP_AVR_POWER_H
#ifndef __CCOMP__
#include_next <avr/power.h>
#else
#include <avr/io.h>
#include <stdint.h>
#include <ccomp/events.h>

#define CCOMP_POWER_ON(reg, bit) (reg &= (uint8_t)~(1 << (bit)))
#define CCOMP_POWER_OFF(reg, bit) (reg |= (uint8_t)(1 << (bit)))

#if defined(__AVR_HAVE_PRR_PRADC)
#define power_adc_enable() CCOMP_POWER_ON(PRR, PRADC)
#define power_adc_disable() CCOMP_POWER_OFF(PRR, PRADC)
#elif defined(__AVR_HAVE_PRR0_PRADC)
#define power_adc_enable() CCOMP_POWER_ON(PRR0, PRADC)
#define power_adc_disable() CCOMP_POWER_OFF(PRR0, PRADC)
#endif
#if defined(__AVR_HAVE_PRR_PRSPI)
#define power_spi_enable() CCOMP_POWER_ON(PRR, PRSPI)
#define power_spi_disable() CCOMP_POWER_OFF(PRR, PRSPI)
#elif defined(__AVR_HAVE_PRR0_PRSPI)
#define power_spi_enable() CCOMP_POWER_ON(PRR0, PRSPI)
#define power_spi_disable() CCOMP_POWER_OFF(PRR0, PRSPI)
#endif
#if defined(__AVR_HAVE_PRR_PRTIM0)
#define power_timer0_enable() CCOMP_POWER_ON(PRR, PRTIM0)
#define power_timer0_disable() CCOMP_POWER_OFF(PRR, PRTIM0)
#elif defined(__AVR_HAVE_PRR0_PRTIM0)
#define power_timer0_enable() CCOMP_POWER_ON(PRR0, PRTIM0)
#define power_timer0_disable() CCOMP_POWER_OFF(PRR0, PRTIM0)
#endif
#if defined(__AVR_HAVE_PRR_PRTIM1)
#define power_timer1_enable() CCOMP_POWER_ON(PRR, PRTIM1)
#define power_timer1_disable() CCOMP_POWER_OFF(PRR, PRTIM1)
#elif defined(__AVR_HAVE_PRR0_PRTIM1)
#define power_timer1_enable() CCOMP_POWER_ON(PRR0, PRTIM1)
#define power_timer1_disable() CCOMP_POWER_OFF(PRR0, PRTIM1)
#endif
#if defined(__AVR_HAVE_PRR_PRTIM2)
#define power_timer2_enable() CCOMP_POWER_ON(PRR, PRTIM2)
#define power_timer2_disable() CCOMP_POWER_OFF(PRR, PRTIM2)
#elif defined(__AVR_HAVE_PRR0_PRTIM2)
#define power_timer2_enable() CCOMP_POWER_ON(PRR0, PRTIM2)
#define power_timer2_disable() CCOMP_POWER_OFF(PRR0, PRTIM2)
#endif
#if defined(__AVR_HAVE_PRR1_PRTIM3)
#define power_timer3_enable() CCOMP_POWER_ON(PRR1, PRTIM3)
#define power_timer3_disable() CCOMP_POWER_OFF(PRR1, PRTIM3)
#endif
#if defined(__AVR_HAVE_PRR_PRTWI)
#define power_twi_enable() CCOMP_POWER_ON(PRR, PRTWI)
#define power_twi_disable() CCOMP_POWER_OFF(PRR, PRTWI)
#elif defined(__AVR_HAVE_PRR0_PRTWI)
#define power_twi_enable() CCOMP_POWER_ON(PRR0, PRTWI)
#define power_twi_disable() CCOMP_POWER_OFF(PRR0, PRTWI)
#endif
#if defined(__AVR_HAVE_PRR_PRUSART0)
#define power_usart0_enable() CCOMP_POWER_ON(PRR, PRUSART0)
#define power_usart0_disable() CCOMP_POWER_OFF(PRR, PRUSART0)
#elif defined(__AVR_HAVE_PRR0_PRUSART0)
#define power_usart0_enable() CCOMP_POWER_ON(PRR0, PRUSART0)
#define power_usart0_disable() CCOMP_POWER_OFF(PRR0, PRUSART0)
#endif
#if defined(__AVR_HAVE_PRR_PRUSART1)
#define power_usart1_enable() CCOMP_POWER_ON(PRR, PRUSART1)
#define power_usart1_disable() CCOMP_POWER_OFF(PRR, PRUSART1)
#elif defined(__AVR_HAVE_PRR0_PRUSART1)
#define power_usart1_enable() CCOMP_POWER_ON(PRR0, PRUSART1)
#define power_usart1_disable() CCOMP_POWER_OFF(PRR0, PRUSART1)
#elif defined(__AVR_HAVE_PRR1_PRUSART1)
#define power_usart1_enable() CCOMP_POWER_ON(PRR1, PRUSART1)
#define power_usart1_disable() CCOMP_POWER_OFF(PRR1, PRUSART1)
#endif
#if defined(__AVR_HAVE_PRR_PRUSI)
#define power_usi_enable() CCOMP_POWER_ON(PRR, PRUSI)
#define power_usi_disable() CCOMP_POWER_OFF(PRR, PRUSI)
#endif
#if defined(__AVR_HAVE_PRR1_PRUSB)
#define power_usb_enable() CCOMP_POWER_ON(PRR1, PRUSB)
#define power_usb_disable() CCOMP_POWER_OFF(PRR1, PRUSB)
#endif

#ifdef CLKPR
typedef unsigned char clock_div_t;
enum {
  clock_div_1, clock_div_2, clock_div_4, clock_div_8, clock_div_16, clock_div_32, clock_div_64, clock_div_128,
  clock_div_256
};
#define clock_prescale_set(value) CCOMP_EVENT(ccomp_clock_prescale, value)
#define clock_prescale_get() ((clock_div_t)(CLKPR & 15))
#endif
#endif
#endif
