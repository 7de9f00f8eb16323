/* Replaces <stdlib.h> of the C library by what the subset can say: size_t, NULL, abs, labs, atoi and atol.
 *
 * Left out: allocation, rand and srand (their state is the library's), sorting and searching (they take `void *`),
 * conversions to text, exit and abort. They are declared nowhere, so they are refused where they are used (rule 1).
 */
#ifndef CCOMP_STDLIB_H
#define CCOMP_STDLIB_H
#ifndef __CCOMP__
#include_next <stdlib.h>
#else
#include <stddef.h>

#define EXIT_SUCCESS 0
#define EXIT_FAILURE 1
#define abs(value) ccomp_abs(value)
#define labs(value) ccomp_labs(value)
#define atoi(text) ((int)ccomp_atol(text))
#define atol(text) ccomp_atol(text)

static inline int ccomp_abs(int value) { return value < 0 ? -value : value; }
static inline long ccomp_labs(long value) { return value < 0 ? -value : value; }

static inline long ccomp_atol(const char *text)
{
  long value = 0;
  size_t i = 0;
  char sign = 0;
  while (text[i] == ' ' || (text[i] >= '\t' && text[i] <= '\r'))
    i++;
  if (text[i] == '-' || text[i] == '+')
    sign = text[i++];
  while (text[i] >= '0' && text[i] <= '9')
    value = value * 10 + (text[i++] - '0');
  return sign == '-' ? -value : value;
}
#endif
#endif
