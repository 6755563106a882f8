/* What a packet means: its instruction or error, and the registers that it names. */
#ifndef MEANING_H
#define MEANING_H

#include "protocol.h"
#include "registers.h"

/* Bytes of a control table: a register, a part of one, or bytes that no register covers. */
struct field {
    int id;                           /* whose, in a Sync or Bulk instruction; else -1 */
    uint32_t address, count;
    const struct table_register *reg; /* that covers them, or null */
    const uint8_t *bytes;             /* or null where they are only asked for */
};

/* A Bulk Read has the most: 204 entries, each with 15 registers and what lies between them. */
enum { MOST_FIELDS = 6400 };

struct meaning {
    int status;       /* a status, and no instruction */
    uint8_t code;     /* the instruction, or the error byte of a status */
    int coded;        /* whether there is one */
    const char *name; /* of the instruction; null where it is not defined */
    uint8_t body[DXL_MAX_BODY]; /* without stuffing */
    size_t n_body, stuffed;     /* stuffed counts the FD that were taken away */
    struct field fields[MOST_FIELDS];
    size_t n_fields;
    const uint8_t *ids; /* the list of a Sync Read */
    size_t n_ids;
    const uint8_t *data; /* parameters that are in no field */
    size_t n_data;
    const char *note; /* what is odd about it, or null */
};

/* What an instruction or a status says by itself. Of a bad checksum it is what the packet would mean. Whether its body is well
 * stuffed; where not, nothing is said. */
int find_meaning(const struct protocol *protocol, const uint8_t *packet, size_t n, struct meaning *meaning);

/* A body of Protocol 1.0 or Mercury that is a status: nothing in it says so. */
void take_as_status(struct meaning *meaning);

/* Adds the registers in a range; bytes is null where they are only asked for. */
void add_fields(struct meaning *meaning, int id, uint32_t address, uint32_t count, const uint8_t *bytes);

/* Whether all bytes of the register are there, and its number then. */
int field_number(const struct field *field, int64_t *number);

/* Two bytes, low byte first. */
uint32_t word_at(const uint8_t *bytes);

#endif
