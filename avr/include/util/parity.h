/* Replaces <util/parity.h> of avr-libc, which is assembly: the parity of a byte, in C. Nothing is left out.
 */
#ifndef CCOMP_UTIL_PARITY_H
#define CCOMP_UTIL_PARITY_H
#ifndef __CCOMP__
#include_next <util/parity.h>
#else
static inline unsigned char ccomp_parity(unsigned char value)
{
  value ^= value >> 4;
  value ^= value >> 2;
  value ^= value >> 1;
  return value & 1;
}
#define parity_even_bit(value) ccomp_parity(value)
#endif
#endif
