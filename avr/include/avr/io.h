/* Wraps <avr/io.h> of avr-libc: registers are used as it declares them, which is the form of a device.
 *
 * `bit_is_set`, `bit_is_clear` and the loops until one of them holds read the register as it is named, where avr-libc
 * takes its address. Left out, and refused by name: SREG, since a text that writes the status register turns interrupts
 * on and off behind the back of all that is promised. Chips whose registers are members of structures laid over an
 * address (XMEGA and later) are refused at the line of the header that lays the first of them.
 */
#ifndef CCOMP_AVR_IO_H
#define CCOMP_AVR_IO_H
#include_next <avr/io.h>

#ifdef __CCOMP__
#undef SREG
#define SREG SREG_is_outside
#undef _SFR_BYTE
#undef _SFR_WORD
#undef _SFR_DWORD
#define _SFR_BYTE(sfr) (sfr)
#define _SFR_WORD(sfr) (sfr)
#define _SFR_DWORD(sfr) (sfr)
#undef bit_is_set
#undef bit_is_clear
#undef loop_until_bit_is_set
#undef loop_until_bit_is_clear
#define bit_is_set(sfr, bit) ((sfr) & (1 << (bit)))
#define bit_is_clear(sfr, bit) (!((sfr) & (1 << (bit))))
#define loop_until_bit_is_set(sfr, bit) do { } while (bit_is_clear(sfr, bit))
#define loop_until_bit_is_clear(sfr, bit) do { } while (bit_is_set(sfr, bit))
#endif

#endif
