#include <string.h>

#include "baseline.h"

/* Addresses that the rules name. */
enum {
    MODEL = 0,
    FIRMWARE = 6,
    ID = 7,
    BAUD = 8,
    MAX = 48,
    MIN = 52,
    TORQUE = 64,
    LEVEL = 68,
    REGISTERED = 69,
    HARDWARE_ERROR = 70,
    GOAL = 116,
    PRESENT = 132
};

struct item {
    uint8_t address, bytes, writable, rom;
    int32_t lowest, highest, fresh;
};

static const struct item items[] = {
    {0, 0, 0, 0, 0, 0, 0}, /* what undefined addresses have */
    {MODEL, 2, 0, 1, 0, 0, 1030},
    {FIRMWARE, 1, 0, 1, 0, 0, 38},
    {ID, 1, 1, 1, 0, 252, 1},
    {BAUD, 1, 1, 1, 0, 7, 1},
    {20, 4, 1, 1, -1044479, 1044479, 0},
    {MAX, 4, 1, 1, 0, 4095, 4095},
    {MIN, 4, 1, 1, 0, 4095, 0},
    {TORQUE, 1, 1, 0, 0, 1, 0},
    {65, 1, 1, 0, 0, 1, 0},
    {LEVEL, 1, 1, 0, 0, 2, 2},
    {REGISTERED, 1, 0, 0, 0, 0, 0},
    {HARDWARE_ERROR, 1, 0, 0, 0, 0, 0},
    {104, 4, 1, 0, -330, 330, 0},
    {GOAL, 4, 1, 0, 0, 4095, 0},
    {PRESENT, 4, 0, 0, 0, 0, 0},
};
enum { ITEMS = sizeof items / sizeof items[0] };

static const uint8_t item_at[DXL_TABLE_BYTES] = {
    [0] = 1,    [1] = 1,    [6] = 2,    [7] = 3,    [8] = 4,    [20] = 5,   [21] = 5,   [22] = 5,   [23] = 5,   [48] = 6,
    [49] = 6,   [50] = 6,   [51] = 6,   [52] = 7,   [53] = 7,   [54] = 7,   [55] = 7,   [64] = 8,   [65] = 9,   [68] = 10,
    [69] = 11,  [70] = 12,  [104] = 13, [105] = 13, [106] = 13, [107] = 13, [116] = 14, [117] = 14, [118] = 14, [119] = 14,
    [132] = 15, [133] = 15, [134] = 15, [135] = 15,
};

static int32_t number(const uint8_t *bytes, size_t n)
{
    if (n == 1)
        return bytes[0];
    return (int32_t)((uint32_t)bytes[0] | (uint32_t)bytes[1] << 8 | (uint32_t)bytes[2] << 16 | (uint32_t)bytes[3] << 24);
}

static void set(uint8_t *table, const struct item *item, int32_t value)
{
    for (size_t i = 0; i < item->bytes; i++)
        table[item->address + i] = (uint8_t)((uint32_t)value >> 8 * i);
}

int64_t baseline_fresh(uint8_t *table, size_t n)
{
    if (n != DXL_TABLE_BYTES)
        return -DXL_NOT_A_TABLE;
    memset(table, 0, DXL_TABLE_BYTES);
    for (size_t i = 1; i < ITEMS; i++)
        set(table, &items[i], items[i].fresh);
    return 0;
}

int64_t baseline_measure(uint8_t *table, size_t n, int32_t position, uint8_t hardware_error)
{
    if (n != DXL_TABLE_BYTES)
        return -DXL_NOT_A_TABLE;
    set(table, &items[item_at[PRESENT]], position);
    table[HARDWARE_ERROR] = hardware_error;
    return 0;
}

/* The rules answer the error of the status. */
enum { GOOD = 0, UNDEFINED = 2, CHECKSUM = 3, RANGE = 4, LENGTH = 5, LIMIT = 6, ACCESS = 7 };

static uint8_t judge_read(size_t address, size_t n)
{
    if (n == 0)
        return LENGTH;
    if (address > DXL_TABLE_BYTES || n > DXL_TABLE_BYTES - address)
        return ACCESS;
    for (size_t i = address; i < address + n; i++)
        if (item_at[i] == 0)
            return ACCESS;
    return GOOD;
}

/* An item's value as the table would stand after the write; the write covers it whole or not at all. */
static int32_t after(const uint8_t *table, size_t address, const uint8_t *data, size_t n, size_t item, size_t bytes)
{
    int written = item >= address && item < address + n;
    return number(written ? data + (item - address) : table + item, bytes);
}

static uint8_t judge_write(const uint8_t *table, size_t address, const uint8_t *data, size_t n)
{
    if (n == 0)
        return LENGTH;
    if (address > DXL_TABLE_BYTES || n > DXL_TABLE_BYTES - address)
        return ACCESS;
    size_t end = address + n;
    for (size_t i = address; i < end; i++) {
        const struct item *item = &items[item_at[i]];
        if (!item->writable || (item->rom && table[TORQUE] != 0))
            return ACCESS;
    }
    const struct item *last = &items[item_at[end - 1]];
    if (items[item_at[address]].address != address || last->address + (size_t)last->bytes != end)
        return LENGTH;
    for (size_t i = address; i < end; i += items[item_at[i]].bytes) {
        const struct item *item = &items[item_at[i]];
        int32_t value = number(data + (i - address), item->bytes);
        if (value < item->lowest || value > item->highest)
            return RANGE;
    }
    int limits = (address <= MAX && end > MAX) || (address <= MIN && end > MIN);
    int goal = address <= GOAL && end > GOAL;
    if (limits || goal) {
        int32_t max = after(table, address, data, n, MAX, 4), min = after(table, address, data, n, MIN, 4);
        int32_t wanted = after(table, address, data, n, GOAL, 4);
        if (wanted < min || wanted > max)
            return LIMIT;
    }
    return GOOD;
}

static uint8_t store(uint8_t *table, size_t address, const uint8_t *data, size_t n)
{
    uint8_t error = judge_write(table, address, data, n);
    if (error == GOOD)
        memcpy(table + address, data, n);
    return error;
}

static void reboot(uint8_t *table, struct dxl_registered *registered)
{
    memset(registered, 0, sizeof *registered);
    for (size_t i = 1; i < ITEMS; i++)
        if (!items[i].rom && items[i].address != PRESENT)
            set(table, &items[i], items[i].fresh);
    memcpy(table + GOAL, table + MIN, 4);
}

static uint8_t factory_reset(uint8_t *table, struct dxl_registered *registered, uint8_t option)
{
    if (option != 0xFF && option != 1 && option != 2)
        return RANGE;
    for (size_t i = 1; i < ITEMS; i++) {
        int kept = (items[i].address == ID && option != 0xFF) || (items[i].address == BAUD && option == 2);
        if (items[i].rom && items[i].writable && !kept)
            set(table, &items[i], items[i].fresh);
    }
    reboot(table, registered);
    return GOOD;
}

static uint8_t action(uint8_t *table, struct dxl_registered *registered)
{
    struct dxl_registered found = *registered;
    if (found.count == 0)
        return UNDEFINED;
    memset(registered, 0, sizeof *registered);
    table[REGISTERED] = 0;
    if (found.min != number(table + MIN, 4) || found.max != number(table + MAX, 4))
        return LIMIT;
    return store(table, found.address, found.bytes, found.count);
}

static uint8_t reg_write(uint8_t *table, struct dxl_registered *registered, size_t address, const uint8_t *data, size_t n)
{
    uint8_t error = judge_write(table, address, data, n);
    if (error == GOOD) {
        memset(registered, 0, sizeof *registered);
        registered->address = (uint16_t)address;
        registered->count = (uint8_t)n;
        memcpy(registered->bytes, data, n);
        registered->min = number(table + MIN, 4);
        registered->max = number(table + MAX, 4);
        table[REGISTERED] = 1;
    }
    return error;
}

/* The place of an ID in a list of entries; -1 where it has none or the list is not to be carried out. */
static int entry_of(const uint8_t *list, size_t n, size_t entry, uint8_t id)
{
    uint8_t seen[253] = {0};
    int found = -1;
    if (n % entry != 0)
        return -1;
    for (size_t i = 0; i < n; i += entry) {
        if (list[i] > 252 || seen[list[i]])
            return -1;
        seen[list[i]] = 1;
        if (list[i] == id)
            found = (int)(i / entry);
    }
    return found;
}

static size_t word(const uint8_t *bytes)
{
    return bytes[0] | (size_t)bytes[1] << 8;
}

/* The same in a Bulk list, whose entries have five bytes and, with data, as many more as their length says; *at is the offset. */
static int bulk_entry_of(const uint8_t *list, size_t n, int with_data, uint8_t id, size_t *at)
{
    uint8_t seen[253] = {0};
    int found = -1, place = 0;
    for (size_t i = 0; i < n; place++) {
        if (n - i < 5 || list[i] > 252 || seen[list[i]])
            return -1;
        size_t length = word(list + i + 3), entry = with_data ? 5 + length : 5;
        if (length == 0 || n - i < entry)
            return -1;
        seen[list[i]] = 1;
        if (list[i] == id) {
            found = place;
            *at = i;
        }
        i += entry;
    }
    return found;
}

/* 0, or the caller's fault. */
static int64_t fault(const uint8_t *table, size_t n_table, struct dxl_registered registered, size_t n_reply)
{
    if (n_table != DXL_TABLE_BYTES)
        return -DXL_NOT_A_TABLE;
    if (table[ID] > 252)
        return -DXL_BAD_TABLE_ID;
    if (registered.count > 8)
        return -DXL_BAD_REGISTERED;
    return n_reply < DXL_MIN_REPLY ? -DXL_SHORT_REPLY : 0;
}

struct dxl_reply baseline_reply(uint8_t *table, struct dxl_registered *registered, uint8_t kind, uint8_t id, const uint8_t *body,
                                size_t n_body, uint8_t *number)
{
    struct dxl_reply silence = {0}, reply = {0};
    if (kind != DXL_PACKET && kind != DXL_BAD_CHECKSUM)
        return silence;

    uint8_t own = table[ID], level = table[LEVEL], needs = 2, error = GOOD;
    int to_all = id == DXL_BROADCAST_ID, answered = !to_all;
    if (id != own && !to_all)
        return silence;

    const uint8_t *params = n_body > 0 ? body + 1 : body;
    size_t n = n_body > 0 ? n_body - 1 : 0;
    size_t first = n >= 2 ? params[0] | (size_t)params[1] << 8 : 0, second = n >= 4 ? params[2] | (size_t)params[3] << 8 : 0;
    if (kind == DXL_BAD_CHECKSUM) {
        error = CHECKSUM;
    } else if (n_body == 0) {
        error = UNDEFINED;
    } else {
        switch (body[0]) {
        case 0x55:
            return silence;
        case 0x01:
            needs = 0;
            if (n != 0) {
                error = LENGTH;
                break;
            }
            if (to_all) {
                answered = 1;
                reply.slot = own;
            }
            reply.bytes[0] = table[MODEL];
            reply.bytes[1] = table[MODEL + 1];
            reply.bytes[2] = table[FIRMWARE];
            reply.count = 3;
            break;
        case 0x02:
            needs = 1;
            error = n != 4 ? LENGTH : judge_read(first, second);
            if (error == GOOD) {
                memcpy(reply.bytes, table + first, second);
                reply.count = (uint8_t)second;
            }
            break;
        case 0x03:
            error = n < 2 ? LENGTH : store(table, first, params + 2, n - 2);
            break;
        case 0x04:
            error = n < 2 ? LENGTH : reg_write(table, registered, first, params + 2, n - 2);
            break;
        case 0x05:
            error = n != 0 ? LENGTH : action(table, registered);
            break;
        case 0x06:
            if (n != 1)
                error = LENGTH;
            else if (!(to_all && params[0] == 0xFF))
                error = factory_reset(table, registered, params[0]);
            break;
        case 0x08:
            if (n != 0)
                error = LENGTH;
            else
                reboot(table, registered);
            break;
        case 0x82: {
            needs = 1;
            if (!to_all) {
                error = UNDEFINED;
                break;
            }
            int place = n < 4 || second == 0 ? -1 : entry_of(params + 4, n - 4, 1, own);
            if (place < 0)
                return silence;
            answered = 1;
            reply.slot = (size_t)place;
            error = judge_read(first, second);
            if (error == GOOD) {
                memcpy(reply.bytes, table + first, second);
                reply.count = (uint8_t)second;
            }
            break;
        }
        case 0x83: {
            if (!to_all) {
                error = UNDEFINED;
                break;
            }
            int place = n < 4 || second == 0 ? -1 : entry_of(params + 4, n - 4, second + 1, own);
            if (place >= 0)
                *number = store(table, first, params + 4 + (size_t)place * (second + 1) + 1, second);
            return silence;
        }
        case 0x92: {
            needs = 1;
            if (!to_all) {
                error = UNDEFINED;
                break;
            }
            size_t at = 0;
            int place = bulk_entry_of(params, n, 0, own, &at);
            if (place < 0)
                return silence;
            answered = 1;
            reply.slot = (size_t)place;
            first = word(params + at + 1);
            second = word(params + at + 3);
            error = judge_read(first, second);
            if (error == GOOD) {
                memcpy(reply.bytes, table + first, second);
                reply.count = (uint8_t)second;
            }
            break;
        }
        case 0x93: {
            if (!to_all) {
                error = UNDEFINED;
                break;
            }
            size_t at = 0;
            if (bulk_entry_of(params, n, 1, own, &at) >= 0)
                *number = store(table, word(params + at + 1), params + at + 5, word(params + at + 3));
            return silence;
        }
        default:
            error = UNDEFINED;
        }
    }
    *number = error;
    if (!answered || level < needs)
        return silence;
    reply.speaks = 1;
    reply.id = own;
    reply.error = table[HARDWARE_ERROR] != 0 ? error | 0x80 : error;
    return reply;
}

int64_t baseline_status(struct dxl_reply reply, uint8_t *out, size_t n_out)
{
    if (reply.id > 252)
        return -DXL_BAD_ID;
    if (reply.count > 8)
        return -DXL_TOO_LONG;
    if (n_out < DXL_MIN_REPLY)
        return -DXL_SHORT_REPLY;
    if (reply.speaks == 0)
        return 0;
    uint8_t status[1 + 8];
    status[0] = reply.error;
    memcpy(status + 1, reply.bytes, 8);
    return baseline_encode(reply.id, 0x55, status, 1 + (size_t)reply.count, out, n_out, 0);
}

struct dxl_carried baseline_carry_out(uint8_t *table, size_t n_table, struct dxl_registered registered, uint8_t kind, uint8_t id,
                                      const uint8_t *body, size_t n_body)
{
    struct dxl_carried carried = {fault(table, n_table, registered, DXL_MIN_REPLY), {0}, registered};
    uint8_t number;
    if (carried.refusal == 0)
        carried.reply = baseline_reply(table, &carried.registered, kind, id, body, n_body, &number);
    return carried;
}

struct dxl_answer baseline_device(uint8_t *table, size_t n_table, struct dxl_registered registered, uint8_t kind, uint8_t id,
                                  const uint8_t *body, size_t n_body, uint8_t *reply, size_t n_reply)
{
    struct dxl_answer answer = {fault(table, n_table, registered, n_reply), 0, registered};
    if (answer.count < 0)
        return answer;
    uint8_t number;
    struct dxl_reply waiting = baseline_reply(table, &answer.registered, kind, id, body, n_body, &number);
    answer.count = baseline_status(waiting, reply, n_reply);
    answer.slot = waiting.slot;
    return answer;
}


/* How many bytes a stuffed body has without its stuffing, or -1 where some FF FF FD is not followed by FD. They go to out. */
static int64_t removed(const uint8_t *stuffed, size_t n, uint8_t *out)
{
    unsigned ff = 0;
    int64_t count = 0;
    for (size_t i = 0; i < n; i++) {
        uint8_t byte = stuffed[i];
        if (out != NULL)
            out[count] = byte;
        count++;
        if (ff >= 2 && byte == 0xFD && (++i == n || stuffed[i] != 0xFD))
            return -1;
        ff = byte == 0xFF ? ff + 1 : 0;
    }
    return count;
}

/* Exactly one packet, by every rule but that of its stuffing, which is tested before. */
static int is_packet(const uint8_t *packet, size_t n)
{
    static const uint8_t header[4] = {0xFF, 0xFF, 0xFD, 0x00};
    if (n < 10 || n > DXL_MAX_PACKET || memcmp(packet, header, sizeof header) != 0 || packet[4] == 253 || packet[4] == 255
        || (size_t)(packet[5] | packet[6] << 8) != n - 7)
        return 0;
    /* going on from the checksum of FF FF FD 00, as ours does */
    uint16_t crc = baseline_crc16(0x0E28, packet + 4, n - 6);
    return packet[n - 2] == (crc & 255) && packet[n - 1] == crc >> 8;
}

struct dxl_answer baseline_exchange(uint8_t *table, size_t n_table, struct dxl_registered registered, const uint8_t *packet,
                                    size_t n_packet, uint8_t *body, size_t n_body, uint8_t *reply, size_t n_reply)
{
    struct dxl_answer refused = {0, 0, registered};
    const uint8_t *stuffed = n_packet < 9 ? packet : packet + 7;
    size_t n_stuffed = n_packet < 9 ? 0 : n_packet - 9;
    int64_t count = removed(stuffed, n_stuffed, NULL);
    refused.count = count < 0                    ? -DXL_BAD_STUFFING
                    : n_body < (size_t)count ? -DXL_NO_ROOM
                                             : fault(table, n_table, registered, n_reply);
    if (refused.count < 0)
        return refused;
    removed(stuffed, n_stuffed, body);
    uint8_t id = is_packet(packet, n_packet) ? packet[4] : 255;
    return baseline_device(table, n_table, registered, DXL_PACKET, id, body, (size_t)count, reply, n_reply);
}

struct dxl_carried baseline_carry_out_packet(uint8_t *table, size_t n_table, struct dxl_registered registered, const uint8_t *packet,
                                             size_t n_packet, uint8_t *body, size_t n_body)
{
    struct dxl_carried refused = {0, {0}, registered};
    const uint8_t *stuffed = n_packet < 9 ? packet : packet + 7;
    size_t n_stuffed = n_packet < 9 ? 0 : n_packet - 9;
    int64_t count = removed(stuffed, n_stuffed, NULL);
    refused.refusal = count < 0                    ? -DXL_BAD_STUFFING
                      : n_body < (size_t)count ? -DXL_NO_ROOM
                                               : fault(table, n_table, registered, DXL_MIN_REPLY);
    if (refused.refusal < 0)
        return refused;
    removed(stuffed, n_stuffed, body);
    uint8_t id = is_packet(packet, n_packet) ? packet[4] : 255;
    return baseline_carry_out(table, n_table, registered, DXL_PACKET, id, body, (size_t)count);
}
