/*
 * A bare microcontroller: what start.c and cortex_m0.c or cortex_m4.c offer, and what they ask of the program. The boards are two
 * that qemu has. Nothing here needs a C library.
 */
#ifndef PORT_H
#define PORT_H

#include <stdint.h>

/* ---- what the port offers ---- */

enum { PORT_TICK = 1000 }; /* microseconds between two ticks */

/* Switches on the UART, the interrupt for each byte that it receives, and the tick. */
void port_begin(void);
/* Waits until the byte can be sent, and sends it. */
void port_put(uint8_t byte);
/* Sleeps until an interrupt has come, at most until the next tick. */
void port_sleep(void);
/* Ends the emulation with this exit code. */
void port_end(int code);

/* ---- what the program offers: both are called by interrupt handlers ---- */

void port_received(uint8_t byte);
void port_ticked(void);

/* ---- between the files of the port ---- */

#define PORT_REGISTER(address) (*(volatile uint32_t *)(address))
void port_uart_interrupt(void);
/* The tick, by a counter of this many cycles; and the UART's interrupt. */
void port_interrupts(uint32_t cycles, uint32_t uart);

#endif
