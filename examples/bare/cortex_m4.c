/* The first UART of Arm's MPS2 board with the image AN386: a Cortex-M4 of 25 MHz. */
#include "port.h"

enum { DATA = 0x40004000, STATE = 0x40004004, CONTROL = 0x40004008, PENDING = 0x4000400C, DIVIDER = 0x40004010 };
enum { SENDING = 1, RECEIVED = 2 }; /* of the state; of what is pending 2 is the same */
enum { CYCLES = 25 * PORT_TICK, UART = 0 };

void port_begin(void)
{
    PORT_REGISTER(DIVIDER) = 16;
    PORT_REGISTER(CONTROL) = 1 | 2 | 8; /* send, receive, an interrupt for each byte */
    port_interrupts(CYCLES, UART);
}

void port_put(uint8_t byte)
{
    while (PORT_REGISTER(STATE) & SENDING)
        ;
    PORT_REGISTER(DATA) = byte;
}

void port_uart_interrupt(void)
{
    PORT_REGISTER(PENDING) = RECEIVED;
    if (PORT_REGISTER(STATE) & RECEIVED)
        port_received((uint8_t)PORT_REGISTER(DATA));
}
