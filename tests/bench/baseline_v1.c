#include <string.h>

#include "baseline.h"
#include "row.h"

enum { FRONT = 4, SHORTEST = 2 };

/* Whether all of a candidate's bytes are there, and then how many they are; IDs above `last` are not allowed, but for 254. */
static enum verdict look(const struct row *row, size_t at, uint8_t last, size_t *size)
{
    size_t have = row->all - at;
    if (byte_at(row, at) != 0xFF || (have > 1 && byte_at(row, at + 1) != 0xFF))
        return NOTHING;
    if (have > 2) {
        uint8_t id = byte_at(row, at + 2);
        if (id > last && id != 254)
            return NOTHING;
    }
    if (have < FRONT)
        return WAITS;
    size_t length = byte_at(row, at + 3);
    if (length < SHORTEST)
        return NOTHING;
    *size = FRONT + length;
    return have < *size ? WAITS : WHOLE;
}

static int sum_is_right(const uint8_t *packet, size_t size)
{
    uint8_t sum = 0;
    for (size_t i = 2; i + 1 < size; i++)
        sum = (uint8_t)(sum + packet[i]);
    return packet[size - 1] + sum == 0xFF;
}

static struct dxl_step read_on(uint8_t last, uint8_t *held, size_t *count, const uint8_t *chunk, size_t n, uint8_t *packet,
                               int closed)
{
    struct dxl_step step = {0, 0, DXL_NO_EVENT, 0};
    if (*count > DXL_V1_MAX_HELD) {
        step.kind = DXL_BAD_READER;
        return step;
    }
    struct row row = {held, chunk, *count, *count + n};
    size_t at = 0;
    for (; at < row.all; at++) {
        size_t size = 0;
        enum verdict verdict = look(&row, at, last, &size);
        if (verdict == WAITS && !closed)
            break;
        if (verdict != WHOLE)
            continue;
        /* whatever is whole is told, so that nothing before it has to be */
        size_t decided = at + size > *count ? at + size : *count;
        copy(&row, at, size, packet);
        step.taken = decided - *count;
        step.id = packet[2];
        step.kind = DXL_BAD_CHECKSUM;
        if (sum_is_right(packet, size)) {
            step.kind = DXL_PACKET;
            step.count = size;
        }
        end_packet(packet, step.count, DXL_V1_MAX_PACKET);
        hold(&row, step.count > 0 ? at + size : at + 1, decided, held, count, DXL_V1_MAX_HELD);
        return step;
    }
    end_packet(packet, 0, DXL_V1_MAX_PACKET);
    step.taken = n;
    hold(&row, at, row.all, held, count, DXL_V1_MAX_HELD);
    return step;
}

static int64_t write_packet(uint8_t last, uint8_t id, uint8_t instruction, const uint8_t *params, size_t n_params, uint8_t *out,
                            size_t n_out, size_t at)
{
    if (id > last && id != 254)
        return -11;
    if (n_params > DXL_V1_MAX_PACKET - FRONT - SHORTEST)
        return -12;
    size_t count = FRONT + SHORTEST + n_params;
    if (at > n_out || n_out - at < count)
        return -13;
    uint8_t *packet = out + at;
    packet[0] = 0xFF;
    packet[1] = 0xFF;
    packet[2] = id;
    packet[3] = (uint8_t)(SHORTEST + n_params);
    packet[4] = instruction;
    memcpy(packet + FRONT + 1, params, n_params);
    uint8_t sum = 0;
    for (size_t i = 2; i + 1 < count; i++)
        sum = (uint8_t)(sum + packet[i]);
    packet[count - 1] = (uint8_t)~sum;
    return (int64_t)count;
}

int64_t baseline_p1_encode(uint8_t id, uint8_t instruction, const uint8_t *params, size_t n_params, uint8_t *out, size_t n_out,
                           size_t at)
{
    return write_packet(253, id, instruction, params, n_params, out, n_out, at);
}

int64_t baseline_mercury_encode(uint8_t id, uint8_t instruction, const uint8_t *params, size_t n_params, uint8_t *out, size_t n_out,
                                size_t at)
{
    return write_packet(252, id, instruction, params, n_params, out, n_out, at);
}

struct dxl_step baseline_p1_feed(uint8_t held[258], size_t *count, const uint8_t *chunk, size_t n, uint8_t packet[259])
{
    return read_on(253, held, count, chunk, n, packet, 0);
}

struct dxl_step baseline_p1_gap(uint8_t held[258], size_t *count, uint8_t packet[259])
{
    static const uint8_t none[1];
    return read_on(253, held, count, none, 0, packet, 1);
}

struct dxl_step baseline_mercury_feed(uint8_t held[258], size_t *count, const uint8_t *chunk, size_t n, uint8_t packet[259])
{
    return read_on(252, held, count, chunk, n, packet, 0);
}

struct dxl_step baseline_mercury_gap(uint8_t held[258], size_t *count, uint8_t packet[259])
{
    static const uint8_t none[1];
    return read_on(252, held, count, none, 0, packet, 1);
}
