/* Replaces <avr/eeprom.h> of avr-libc by what can be had without addresses as pointers: an address in the EEPROM is a
 * number. ccomp_eeprom_read_byte(ADDRESS) reads a byte and ccomp_eeprom_update_byte(ADDRESS, VALUE) writes one where it
 * differs; both wait for a write that is going on. They are there in front of avr-libc's own header too, so a source
 * that uses them builds with and without ccomp.
 *
 * Left out, and refused by name: EEMEM and the functions that take a pointer.
 */
#ifndef CCOMP_AVR_EEPROM_H
#define CCOMP_AVR_EEPROM_H
#ifndef __CCOMP__
#include_next <avr/eeprom.h>
#define ccomp_eeprom_read_byte(address) eeprom_read_byte((const uint8_t *)(uint16_t)(address))
#define ccomp_eeprom_update_byte(address, value) eeprom_update_byte((uint8_t *)(uint16_t)(address), value)
#else
#include <avr/io.h>
#include <stdint.h>
#include <ccomp/events.h>
#ifdef EEPE
#define eeprom_is_ready() bit_is_clear(EECR, EEPE)
#else
#define eeprom_is_ready() bit_is_clear(EECR, EEWE)
#endif
#define eeprom_busy_wait() do { } while (!eeprom_is_ready())
#define EEMEM __attribute__((EEMEM_is_outside))
#define eeprom_read_byte(pointer) eeprom_read_byte_is_outside()
#define eeprom_read_word(pointer) eeprom_read_word_is_outside()
#define eeprom_read_dword(pointer) eeprom_read_dword_is_outside()
#define eeprom_read_block(to, from, n) eeprom_read_block_is_outside()
#define eeprom_write_byte(pointer, value) eeprom_write_byte_is_outside()
#define eeprom_write_word(pointer, value) eeprom_write_word_is_outside()
#define eeprom_write_dword(pointer, value) eeprom_write_dword_is_outside()
#define eeprom_write_block(from, to, n) eeprom_write_block_is_outside()
#define eeprom_update_byte(pointer, value) eeprom_update_byte_is_outside()
#define eeprom_update_word(pointer, value) eeprom_update_word_is_outside()
#define eeprom_update_dword(pointer, value) eeprom_update_dword_is_outside()
#define eeprom_update_block(from, to, n) eeprom_update_block_is_outside()

static inline uint8_t ccomp_eeprom_read_byte(uint16_t address)
{
  while (!eeprom_is_ready()) { }
#if E2END > 0xFF
  EEAR = address;
#else
  EEARL = (uint8_t)address;
#endif
  EECR |= 1 << EERE;
  return EEDR;
}

static inline void ccomp_eeprom_update_byte(uint16_t address, uint8_t value)
{
  if (ccomp_eeprom_read_byte(address) == value)
    return;
  EEDR = value;
  CCOMP_EVENT(ccomp_eeprom_start, 0);
}
#endif
#endif
