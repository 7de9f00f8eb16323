#include "modbus.h"
enum { L_IDLE, L_RECEIVING, L_READY, L_SENDING };
uint8_t frame[FRAME_MAX];
uint8_t frame_len;
static volatile uint8_t link_state;
static volatile uint8_t gap;
static uint8_t rx_at;
static uint8_t tx_at;
static uint8_t overflow;

void link_init(void)
{
    UBRR0L = 51;
    UCSR0B = _BV(7) | _BV(4) | _BV(3);
    TCCR0B = 3;
    TIMSK0 = 1;
}

ISR(USART_RX_vect)
{
    uint8_t c = UDR0;

    if (link_state == L_IDLE) {
        rx_at = 0;
        overflow = 0;
        link_state = L_RECEIVING;
    }
    if (link_state != L_RECEIVING)
        return;
    gap = 0;
    if (rx_at < FRAME_MAX)
        frame[rx_at++] = c;
    else
        overflow = 1;
}

ISR(TIMER0_OVF_vect)
{
    if (link_state == L_RECEIVING && ++gap >= 4) {
        if (overflow) {
            link_state = L_IDLE;
        } else {
            frame_len = rx_at;
            link_state = L_READY;
        }
    }
}

ISR(USART_UDRE_vect)
{
    if (link_state == L_SENDING && tx_at < frame_len && tx_at < FRAME_MAX) {
        UDR0 = frame[tx_at++];
    } else {
        UCSR0B &= ~_BV(5);
        if (link_state == L_SENDING)
            link_state = L_IDLE;
    }
}

uint8_t link_frame(void)
{
    return link_state == L_READY;
}

void link_send(uint8_t n)
{
    uint16_t crc;

    if (n == 0) {
        link_state = L_IDLE;
        return;
    }
    crc = crc16(frame, n);
    frame[n] = crc & 0xFF;
    frame[n + 1] = crc >> 8;
    frame_len = n + 2;
    tx_at = 0;
    link_state = L_SENDING;
    UCSR0B |= _BV(5);
}
