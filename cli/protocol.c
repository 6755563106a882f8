#include "protocol.h"

#include <string.h>

static const struct protocol protocols[] = {
    {"2", dxl_feed, dxl_gap, 4, 7, 2, 10},
    {"1", dxl_p1_feed, dxl_p1_gap, 2, 4, 1, 6},
    {"mercury", dxl_mercury_feed, dxl_mercury_gap, 2, 4, 1, 6},
};

const struct protocol *find_protocol(const char *name)
{
    for (size_t i = 0; i < sizeof protocols / sizeof *protocols; i++)
        if (strcmp(name, protocols[i].name) == 0)
            return &protocols[i];
    return NULL;
}

int is_second(const struct protocol *protocol)
{
    return protocol == &protocols[0];
}

size_t announced(const struct protocol *protocol, const uint8_t *packet)
{
    size_t low = packet[protocol->header + 1];
    return protocol->front + (is_second(protocol) ? low + 256u * packet[protocol->header + 2] : low);
}
