/* Replaces <util/crc16.h> of avr-libc, which is assembly: the same checksums bit by bit, in C. Nothing is left out.
 */
#ifndef CCOMP_UTIL_CRC16_H
#define CCOMP_UTIL_CRC16_H
#ifndef __CCOMP__
#include_next <util/crc16.h>
#else
#include <stdint.h>

/* The least bit first: polynomial 0xA001, beginning with 0xFFFF for Modbus. */
static inline uint16_t _crc16_update(uint16_t crc, uint8_t data)
{
  crc ^= data;
  for (uint8_t bit = 0; bit < 8; bit++)
    crc = crc & 1 ? crc >> 1 ^ 0xA001 : crc >> 1;
  return crc;
}

/* The greatest bit first: polynomial 0x1021. */
static inline uint16_t _crc_xmodem_update(uint16_t crc, uint8_t data)
{
  crc ^= (uint16_t)data << 8;
  for (uint8_t bit = 0; bit < 8; bit++)
    crc = crc & 0x8000 ? crc << 1 ^ 0x1021 : crc << 1;
  return crc;
}

/* The least bit first: polynomial 0x8408, which is 0x1021 mirrored. */
static inline uint16_t _crc_ccitt_update(uint16_t crc, uint8_t data)
{
  crc ^= data;
  for (uint8_t bit = 0; bit < 8; bit++)
    crc = crc & 1 ? crc >> 1 ^ 0x8408 : crc >> 1;
  return crc;
}

/* The least bit first: polynomial 0x8C, of one-wire parts. */
static inline uint8_t _crc_ibutton_update(uint8_t crc, uint8_t data)
{
  crc ^= data;
  for (uint8_t bit = 0; bit < 8; bit++)
    crc = crc & 1 ? crc >> 1 ^ 0x8C : crc >> 1;
  return crc;
}

/* The greatest bit first: polynomial 0x07. */
static inline uint8_t _crc8_ccitt_update(uint8_t crc, uint8_t data)
{
  crc ^= data;
  for (uint8_t bit = 0; bit < 8; bit++)
    crc = crc & 0x80 ? crc << 1 ^ 0x07 : crc << 1;
  return crc;
}
#endif
#endif
