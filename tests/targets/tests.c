/*
 * All tests of one processor in one program: those of tests/c, whose main has another name here, and the random lives. Prints a
 * line for each with what it returned, and the hashes.
 */
#include "port.h"
#include "targets.h"

int published_main(int argc, char **argv);
int exchange_main(void);
int board_calls_main(void);
int plan_main(void);

void say(const char *text)
{
    for (; *text != '\0'; text++)
        port_put((uint8_t)*text);
}

void say_hex(uint32_t number)
{
    for (int i = 28; i >= 0; i -= 4)
        port_put((uint8_t) "0123456789abcdef"[number >> i & 15]);
}

static int returned(const char *name, int code)
{
    say(name), say(code == 0 ? ": passed\n" : ": FAILED\n");
    return code != 0;
}

void port_received(uint8_t byte)
{
    (void)byte;
}

void port_ticked(void)
{
}

int main(void)
{
    char published[] = "published", packets[] = "packets", packets_v1[] = "packets_v1";
    char *words[] = {published, packets, packets_v1, 0};
    port_begin();
    int failed = returned("published", published_main(3, words));
    failed += returned("exchange", exchange_main());
    failed += returned("board_calls", board_calls_main());
    failed += returned("plan", plan_main());
    lives();
    return failed;
}
