#ifndef MODBUS_H
#define MODBUS_H
#include <stdbool.h>
#include <stddef.h>
#include <stdint.h>
#include <avr/io.h>
#include <avr/interrupt.h>
#define FRAME_MAX 32
#define HOLDING 12
#define COILS 8
enum { EX_NONE = 0, EX_FUNCTION = 1, EX_ADDRESS = 2, EX_VALUE = 3 };
extern uint16_t holding[HOLDING];
extern uint8_t coils[COILS];
extern uint8_t frame[FRAME_MAX];
extern uint8_t frame_len;
uint16_t crc16(const uint8_t *p, uint8_t n);
uint8_t modbus_handle(void);
void modbus_set_address(uint8_t a);
void link_init(void);
uint8_t link_frame(void);
void link_send(uint8_t n);
#endif
