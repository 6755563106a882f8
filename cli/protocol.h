/* The three protocols whose packets the tool dxl finds: the library's calls, and where the parts of a packet stand. */
#ifndef PROTOCOL_H
#define PROTOCOL_H

#include "mednukals.h"

struct protocol {
    const char *name; /* as --protocol has it */
    struct dxl_step (*feed)(uint8_t *held, size_t *count, const uint8_t *chunk, size_t n, uint8_t *packet);
    struct dxl_step (*gap)(uint8_t *held, size_t *count, uint8_t *packet);
    size_t header;   /* the bytes of the header; the ID follows */
    size_t front;    /* those up to the end of the length */
    size_t checksum; /* those of the checksum */
    size_t shortest; /* of a packet */
};

/* By its name, or null. */
const struct protocol *find_protocol(const char *name);

/* Whether it is Protocol 2.0: stuffed bodies, status packets that say so, and the register list. */
int is_second(const struct protocol *protocol);

/* How many bytes a packet has by its length, of which at least the front is there. */
size_t announced(const struct protocol *protocol, const uint8_t *packet);

#endif
