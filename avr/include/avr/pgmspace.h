/* Replaces <avr/pgmspace.h> of avr-libc: a table in flash is a const object, and pgm_read_* reads it. Behind ccomp the
 * driver puts const objects that are only subscripted into flash, by `__flash`.
 *
 * pgm_read_byte, pgm_read_word and pgm_read_dword give the unsigned types that avr-libc's give; one that reads more
 * bytes than its operand points to is refused (rule 5), pgm_read_ptr gives the pointer with its own type.
 * Left out: the reads by a far address and of float, PGM_VOID_P, the types prog_*, and of the functions with _P those
 * that are not below.
 */
#ifndef CCOMP_AVR_PGMSPACE_H
#define CCOMP_AVR_PGMSPACE_H
#ifndef __CCOMP__
#include_next <avr/pgmspace.h>
#else
#include <stddef.h>
#include <stdint.h>
#include <avr/io.h>
#include <string.h>

#define PROGMEM
#define PGM_P const char *
#define PSTR(text) (text)
#define CCOMP_AT_LEAST(bytes, pointer) (sizeof(char[sizeof *(pointer) < bytes ? -1 : 1]) - 1)
#define pgm_read_byte(pointer) ((uint8_t)*(pointer))
#define pgm_read_word(pointer) ((uint16_t)(pointer)[CCOMP_AT_LEAST(2, pointer)])
#define pgm_read_dword(pointer) ((uint32_t)(pointer)[CCOMP_AT_LEAST(4, pointer)])
#define pgm_read_ptr(pointer) (*(pointer))
#define pgm_read_byte_near(pointer) pgm_read_byte(pointer)
#define pgm_read_word_near(pointer) pgm_read_word(pointer)
#define pgm_read_dword_near(pointer) pgm_read_dword(pointer)
#define pgm_read_ptr_near(pointer) pgm_read_ptr(pointer)

#define strlen_P(s) strlen(s)
#define strcpy_P(to, from) strcpy(to, from)
#define strncpy_P(to, from, n) strncpy(to, from, n)
#define strcat_P(to, from) strcat(to, from)
#define strcmp_P(a, b) strcmp(a, b)
#define strncmp_P(a, b, n) strncmp(a, b, n)
#define memcpy_P(to, from, n) memcpy(to, from, n)
#define memcmp_P(a, b, n) memcmp(a, b, n)
#endif
#endif
