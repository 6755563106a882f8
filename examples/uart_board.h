/*
 * A board without an operating system, whose UART receives by DMA into a ring buffer. uart_board.c has the main loop around the
 * library; docs/INTEGRATING.md explains it.
 */
#ifndef UART_BOARD_H
#define UART_BOARD_H

#include <stddef.h>
#include <stdint.h>

/* ---- what the board's hardware offers; tests/c/uart_test.c and uart_pty.c simulate it ---- */

enum { UART_RING = 256 }; /* a power of two */

/* The DMA writes what comes here, round and round. */
extern volatile uint8_t uart_ring[UART_RING];

/* How many bytes the DMA has written since the start; goes on at 0 after 2^32 - 1. */
uint32_t uart_received(void);

/* Begins to send, and returns at once. The bytes stay as they are until board_sent is called. */
void uart_send(const uint8_t *bytes, size_t n);

void uart_set_baud(uint32_t baud);

/* Microseconds; goes on at 0 after 2^32 - 1. */
uint32_t clock_micros(void);

int32_t motor_position(void);
uint8_t motor_errors(void);
void motor_set_torque(int on);
void motor_set_goal(int32_t position);

/* Bytes that outlast a power cut. */
enum { STORE_BYTES = 16 };
void store_read(uint8_t bytes[STORE_BYTES]);
void store_write(const uint8_t bytes[STORE_BYTES]);

/* The library refused a call, with this number: lets go of the motor and goes through power-up again, as board_start does. It does
 * not return. */
void board_fault(int refusal);

/* ---- what uart_board.c offers ---- */

/* At power-up. */
void board_start(void);

/* One turn of the main loop: for (;;) board_poll(); */
void board_poll(void);

/* Interrupt handlers. The line has been idle for the time of one byte, for the first time since a byte came. */
void board_line_idle(void);
/* The last bit of what uart_send was given has left. */
void board_sent(void);

#endif
