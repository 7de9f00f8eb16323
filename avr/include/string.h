/* Replaces <string.h> of the C library by what can be said without `void *`: the functions of strings over `char`, and
 * of memory over `unsigned char`, which uint8_t is. A block of another type is refused (rule 25): write a loop, or
 * assign member by member.
 *
 * Left out: all functions that are not below.
 */
#ifndef CCOMP_STRING_H
#define CCOMP_STRING_H
#ifndef __CCOMP__
#include_next <string.h>
#else
#include <stddef.h>

#define memset(to, value, count) ccomp_memset(to, value, count)
#define memcpy(to, from, count) ccomp_memcpy(to, from, count)
#define memmove(to, from, count) ccomp_memmove(to, from, count)
#define memcmp(a, b, count) ccomp_memcmp(a, b, count)
#define strlen(text) ccomp_strlen(text)
#define strcpy(to, from) ccomp_strcpy(to, from)
#define strncpy(to, from, count) ccomp_strncpy(to, from, count)
#define strcat(to, from) ccomp_strcat(to, from)
#define strcmp(a, b) ccomp_strcmp(a, b)
#define strncmp(a, b, count) ccomp_strncmp(a, b, count)

static inline unsigned char *ccomp_memset(unsigned char *to, int value, size_t count)
{
  for (size_t i = 0; i < count; i++)
    to[i] = (unsigned char)value;
  return to;
}

static inline unsigned char *ccomp_memcpy(unsigned char *to, const unsigned char *from, size_t count)
{
  for (size_t i = 0; i < count; i++)
    to[i] = from[i];
  return to;
}

/* Of two places in one object the order decides; of places in two objects it has no meaning, and none is needed:
 * each byte of `from` is looked for among those of `to`. */
static inline unsigned char *ccomp_memmove(unsigned char *to, const unsigned char *from, size_t count)
{
  size_t i;
  for (i = 0; i < count; i++)
    if (to == from + i)
      break;
  if (i == count) {
    for (i = 0; i < count; i++)
      to[i] = from[i];
  } else {
    for (i = count; i > 0; i--)
      to[i - 1] = from[i - 1];
  }
  return to;
}

static inline int ccomp_memcmp(const unsigned char *a, const unsigned char *b, size_t count)
{
  for (size_t i = 0; i < count; i++)
    if (a[i] != b[i])
      return a[i] - b[i];
  return 0;
}

static inline size_t ccomp_strlen(const char *text)
{
  size_t length = 0;
  while (text[length])
    length++;
  return length;
}

static inline char *ccomp_strcpy(char *to, const char *from)
{
  size_t i = 0;
  do {
    to[i] = from[i];
  } while (from[i++]);
  return to;
}

static inline char *ccomp_strncpy(char *to, const char *from, size_t count)
{
  size_t i = 0;
  while (i < count && from[i]) {
    to[i] = from[i];
    i++;
  }
  while (i < count)
    to[i++] = 0;
  return to;
}

static inline char *ccomp_strcat(char *to, const char *from)
{
  ccomp_strcpy(to + ccomp_strlen(to), from);
  return to;
}

static inline int ccomp_strcmp(const char *a, const char *b)
{
  size_t i = 0;
  while (a[i] && a[i] == b[i])
    i++;
  return (unsigned char)a[i] - (unsigned char)b[i];
}

static inline int ccomp_strncmp(const char *a, const char *b, size_t count)
{
  size_t i = 0;
  while (i < count && a[i] && a[i] == b[i])
    i++;
  return i == count ? 0 : (unsigned char)a[i] - (unsigned char)b[i];
}
#endif
#endif
