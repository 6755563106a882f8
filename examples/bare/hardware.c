/*
 * The board of uart_board.c on a bare microcontroller: what uart_board.h asks of the hardware, by port.h. Where a board has DMA, an
 * interrupt handler writes into the ring here; store and arm are simulated. examples/talk.py talks to it over the serial port.
 */
#include "port.h"
#include "../uart_board.h"

#include "string.h"

/* Longer than the time of a byte: behind an emulated line stands a scheduler. */
enum { IDLE_TICKS = 100 };
enum { ARM_TICKS = 10, ARM_STEP = 32 };

volatile uint8_t uart_ring[UART_RING];

/* Written by the interrupt handlers. */
static volatile uint32_t received, ticks, last_byte;
static volatile int came; /* bytes have come since the line was idle */

static int torque;
static int32_t goal, position;
static uint32_t moved;

static uint8_t store[STORE_BYTES]; /* all 0, as one that nothing was stored in */

/* ---- interrupt handlers ---- */

void port_received(uint8_t byte)
{
    uart_ring[received % UART_RING] = byte;
    received++;
    last_byte = ticks;
    came = 1;
}

void port_ticked(void)
{
    ticks++;
    if (came && ticks - last_byte > IDLE_TICKS) {
        came = 0;
        board_line_idle();
    }
}

/* ---- what uart_board.h asks of the hardware ---- */

uint32_t uart_received(void)
{
    return received;
}

/* This line has no echo. */
void uart_send(const uint8_t *bytes, size_t n)
{
    for (size_t i = 0; i < n; i++)
        port_put(bytes[i]);
    board_sent();
}

/* An emulated line has no speed. */
void uart_set_baud(uint32_t baud)
{
    (void)baud;
}

uint32_t clock_micros(void)
{
    return ticks * PORT_TICK;
}

int32_t motor_position(void)
{
    return position;
}

uint8_t motor_errors(void)
{
    return 0;
}

void motor_set_torque(int on)
{
    torque = on;
}

void motor_set_goal(int32_t to)
{
    goal = to;
}

void store_read(uint8_t bytes[STORE_BYTES])
{
    memcpy(bytes, store, STORE_BYTES);
}

void store_write(const uint8_t bytes[STORE_BYTES])
{
    memcpy(store, bytes, STORE_BYTES);
}

void board_fault(int refusal)
{
    port_end(refusal);
}

/* ---- the arm, and the loop ---- */

static void move_arm(void)
{
    int32_t away = goal - position;
    if (!torque || ticks - moved < ARM_TICKS)
        return;
    moved = ticks;
    position += away > ARM_STEP ? ARM_STEP : away < -ARM_STEP ? -ARM_STEP : away;
}

int main(void)
{
    board_start();
    port_begin();
    for (;;) {
        move_arm();
        board_poll();
        port_sleep();
    }
}
