/* The UART of the micro:bit, which has an nRF51: a Cortex-M0 of 16 MHz. */
#include "port.h"

enum {
    START_RECEIVE = 0x40002000,
    START_SEND = 0x40002008,
    RECEIVED = 0x40002108,
    SENT = 0x4000211C,
    INTERRUPTS = 0x40002304,
    ENABLE = 0x40002500,
    RECEIVE = 0x40002518,
    SEND = 0x4000251C
};
enum { CYCLES = 16 * PORT_TICK, UART = 2 };

void port_begin(void)
{
    PORT_REGISTER(ENABLE) = 4;
    PORT_REGISTER(START_SEND) = 1;
    PORT_REGISTER(START_RECEIVE) = 1;
    PORT_REGISTER(INTERRUPTS) = 4; /* a byte was received */
    port_interrupts(CYCLES, UART);
}

void port_put(uint8_t byte)
{
    PORT_REGISTER(SENT) = 0;
    PORT_REGISTER(SEND) = byte;
    while (!PORT_REGISTER(SENT))
        ;
}

void port_uart_interrupt(void)
{
    if (PORT_REGISTER(RECEIVED)) {
        PORT_REGISTER(RECEIVED) = 0;
        port_received((uint8_t)PORT_REGISTER(RECEIVE));
    }
}
