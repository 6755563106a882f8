#include "meaning.h"

#include <string.h>

/* ---- registers in a range */

uint32_t word_at(const uint8_t *bytes)
{
    return bytes[0] | (uint32_t)bytes[1] << 8;
}

/* Where the register that covers the address ends, or where the next one begins. */
static uint32_t stretch_end(uint32_t address)
{
    const struct table_register *reg = register_at(address);
    if (reg != NULL)
        return (uint32_t)reg->address + reg->size;
    for (size_t i = 0; i < n_registers; i++)
        if (registers[i].address > address)
            return registers[i].address;
    return UINT32_MAX;
}

void add_fields(struct meaning *meaning, int id, uint32_t address, uint32_t count, const uint8_t *bytes)
{
    uint32_t end = address + count;
    for (uint32_t at = address; at < end && meaning->n_fields < MOST_FIELDS;) {
        uint32_t stop = stretch_end(at) < end ? stretch_end(at) : end;
        meaning->fields[meaning->n_fields++] =
            (struct field){id, at, stop - at, register_at(at), bytes == NULL ? NULL : bytes + (at - address)};
        at = stop;
    }
}

/* Numbers of four bytes are signed. */
int field_number(const struct field *field, int64_t *number)
{
    uint32_t value = 0;
    if (field->reg == NULL || field->bytes == NULL || field->count != field->reg->size)
        return 0;
    for (uint32_t i = 0; i < field->count; i++)
        value |= (uint32_t)field->bytes[i] << (8 * i);
    *number = field->count == 4 && value > INT32_MAX ? (int64_t)value - (INT64_C(1) << 32) : (int64_t)value;
    return 1;
}

/* ---- instructions of Protocol 2.0 */

static void keep_data(struct meaning *meaning, const uint8_t *data, size_t n, const char *note)
{
    meaning->data = data;
    meaning->n_data = n;
    meaning->note = note;
}

static void find_read(struct meaning *meaning, const uint8_t *params, size_t n)
{
    if (n != 4)
        keep_data(meaning, params, n, "it takes an address and a length, four bytes");
    else
        add_fields(meaning, -1, word_at(params), word_at(params + 2), NULL);
    if (n == 4 && word_at(params + 2) == 0)
        meaning->note = "it asks for no bytes";
}

static void find_write(struct meaning *meaning, const uint8_t *params, size_t n)
{
    if (n < 2)
        keep_data(meaning, params, n, "it takes an address of two bytes, and data");
    else if (n == 2)
        keep_data(meaning, params, n, "it has no data");
    else
        add_fields(meaning, -1, word_at(params), (uint32_t)n - 2, params + 2);
}

/* What devices make of an ID in a list: one that stands there twice, or that no device has, and none of them acts on the list. */
static void note_id(struct meaning *meaning, uint8_t seen[256], uint8_t id)
{
    if (id > 252)
        meaning->note = "its list has an ID above 252, and no device acts on that";
    else if (seen[id]++)
        meaning->note = "its list has an ID twice, and no device acts on that";
}

/* An address, a length and a list: of IDs, or of IDs each followed by as many bytes. */
static void find_sync(struct meaning *meaning, const uint8_t *params, size_t n, int writes)
{
    if (n < 4) {
        keep_data(meaning, params, n, "it takes an address, a length and a list");
        return;
    }
    uint8_t seen[256] = {0};
    uint32_t address = word_at(params), length = word_at(params + 2);
    size_t at = 4, entry = writes ? 1 + (size_t)length : 1;
    for (; at + entry <= n; at += entry) {
        note_id(meaning, seen, params[at]);
        if (writes)
            add_fields(meaning, params[at], address, length, params + at + 1);
    }
    if (length == 0)
        meaning->note = "its length is 0, and no device acts on that";
    if (!writes) {
        add_fields(meaning, -1, address, length, NULL);
        meaning->ids = params + 4;
        meaning->n_ids = n - 4;
    } else if (at < n)
        keep_data(meaning, params + at, n - at, "its list is cut short, and no device acts on that");
}

/* Entries of an ID, an address and a length, with as many bytes behind it in a Bulk Write. */
static void find_bulk(struct meaning *meaning, const uint8_t *params, size_t n, int writes)
{
    uint8_t seen[256] = {0};
    size_t at = 0;
    while (at + 5 <= n) {
        uint32_t length = word_at(params + at + 3);
        size_t data = writes ? length : 0;
        if (data > n - at - 5)
            break;
        note_id(meaning, seen, params[at]);
        if (length == 0)
            meaning->note = "a length in it is 0, and no device acts on that";
        add_fields(meaning, params[at], word_at(params + at + 1), length, writes ? params + at + 5 : NULL);
        at += 5 + data;
    }
    if (at < n)
        keep_data(meaning, params + at, n - at, "its list is cut short, and no device acts on that");
}

static void find_reset(struct meaning *meaning, const uint8_t *params, size_t n)
{
    static const char *const notes[] = {"all but the ID", "all but ID and baud code"};
    keep_data(meaning, params, n, "its option is not defined");
    if (n == 1 && params[0] == 0xFF)
        meaning->note = "everything, the ID too";
    else if (n == 1 && (params[0] == 1 || params[0] == 2))
        meaning->note = notes[params[0] - 1];
}

static void find_instruction(struct meaning *meaning)
{
    const uint8_t *params = meaning->body + 1;
    size_t n = meaning->n_body - 1;
    switch (meaning->code) {
    case DXL_INST_READ:
        find_read(meaning, params, n);
        break;
    case DXL_INST_WRITE:
    case DXL_INST_REG_WRITE:
        find_write(meaning, params, n);
        break;
    case DXL_INST_FACTORY_RESET:
        find_reset(meaning, params, n);
        break;
    case DXL_INST_SYNC_READ:
    case DXL_INST_SYNC_WRITE:
        find_sync(meaning, params, n, meaning->code == DXL_INST_SYNC_WRITE);
        break;
    case DXL_INST_BULK_READ:
    case DXL_INST_BULK_WRITE:
        find_bulk(meaning, params, n, meaning->code == DXL_INST_BULK_WRITE);
        break;
    default:
        keep_data(meaning, params, n, n > 0 && meaning->name != NULL ? "it takes no parameters" : NULL);
    }
}

/* ---- instructions of Protocol 1.0 and Mercury */

/* The address of one byte is followed by a length of one byte, or by data. No register list is known of these devices. */
static void find_old(struct meaning *meaning)
{
    const uint8_t *params = meaning->body + 1;
    size_t n = meaning->n_body - 1;
    int writes = meaning->code == DXL_INST_WRITE || meaning->code == DXL_INST_REG_WRITE;
    if (meaning->code > DXL_INST_FACTORY_RESET && meaning->code != DXL_INST_SYNC_WRITE && meaning->code != DXL_INST_BULK_READ)
        meaning->name = NULL;
    if (meaning->code == DXL_INST_READ && n == 2)
        meaning->fields[meaning->n_fields++] = (struct field){-1, params[0], params[1], NULL, NULL};
    else if (writes && n >= 2)
        meaning->fields[meaning->n_fields++] = (struct field){-1, params[0], (uint32_t)n - 1, NULL, params + 1};
    else
        keep_data(meaning, params, n, NULL);
}

/* ---- packets */

/* The error byte and the data behind it. */
static void find_status(struct meaning *meaning)
{
    meaning->status = 1;
    meaning->coded = meaning->n_body >= 2;
    meaning->code = meaning->coded ? meaning->body[1] : 0;
    if (meaning->coded)
        keep_data(meaning, meaning->body + 2, meaning->n_body - 2, NULL);
    else
        meaning->note = "it has no error byte";
}

void take_as_status(struct meaning *meaning)
{
    meaning->status = 1;
    meaning->n_fields = 0;
    keep_data(meaning, meaning->body + 1, meaning->n_body - 1, NULL);
}

int find_meaning(const struct protocol *protocol, const uint8_t *packet, size_t n, struct meaning *meaning)
{
    size_t n_body = n - protocol->front - protocol->checksum;
    const uint8_t *body = packet + protocol->front;
    memset(meaning, 0, offsetof(struct meaning, fields));
    meaning->n_fields = meaning->n_ids = 0;
    keep_data(meaning, NULL, 0, NULL);
    int64_t count = is_second(protocol) ? dxl_unstuff(body, n_body, meaning->body, sizeof meaning->body) : (int64_t)n_body;
    if (count < 1)
        return 0;
    if (!is_second(protocol))
        memcpy(meaning->body, body, n_body);
    meaning->n_body = (size_t)count;
    meaning->stuffed = n_body - meaning->n_body;
    meaning->code = meaning->body[0];
    meaning->coded = 1;
    meaning->name = instruction_name(meaning->code);
    if (!is_second(protocol))
        find_old(meaning);
    else if (meaning->code == DXL_INST_STATUS)
        find_status(meaning);
    else
        find_instruction(meaning);
    return 1;
}
