/*
 * From reset to main, and the parts that every Cortex-M has: vectors, the tick, sleep. The end is a call to the debugger, which is
 * qemu here; a board would start anew.
 */
#include "port.h"

/* Of the linker script. */
extern uint32_t stack_top, data_load, data_start, data_end, bss_start, bss_end;

int main(void);

void reset(void);
void reset(void)
{
    const uint32_t *from = &data_load;
    for (uint32_t *to = &data_start; to < &data_end; to++)
        *to = *from++;
    for (uint32_t *to = &bss_start; to < &bss_end; to++)
        *to = 0;
    port_end(main());
}

static void fault(void)
{
    port_end(99);
}

/* The UART has the first or the third interrupt; only that one is enabled. */
static const struct {
    void *stack;
    void (*handlers[18])(void);
} vectors __attribute__((section(".vectors"), used)) = {
    &stack_top,
    {reset, fault, fault, fault, fault, fault, 0, 0, 0, 0, fault, fault, 0, fault, port_ticked, port_uart_interrupt, fault,
     port_uart_interrupt}};

#define TICK_CONTROL PORT_REGISTER(0xE000E010)
#define TICK_RELOAD PORT_REGISTER(0xE000E014)
#define TICK_VALUE PORT_REGISTER(0xE000E018)
#define ENABLE_INTERRUPT PORT_REGISTER(0xE000E100)

void port_interrupts(uint32_t cycles, uint32_t uart)
{
    TICK_RELOAD = cycles - 1;
    TICK_VALUE = 0;
    TICK_CONTROL = 7; /* on, with its interrupt, by the processor's clock */
    ENABLE_INTERRUPT = 1u << uart;
}

void port_sleep(void)
{
    __asm__ volatile("wfi" ::: "memory");
}

void port_end(int code)
{
    enum { EXIT = 0x20, ENDED = 0x20026 }; /* semihosting: an exit with a code */
    static uint32_t words[2];
    words[0] = ENDED;
    words[1] = (uint32_t)code;
    register uint32_t what __asm__("r0") = EXIT;
    register uint32_t *with __asm__("r1") = words;
    __asm__ volatile("bkpt 0xAB" : : "r"(what), "r"(with) : "memory");
    for (;;)
        ;
}
