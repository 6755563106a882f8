#include <string.h>

#include "baseline.h"
#include "candidate.h"
#include "row.h"

static int well_stuffed(const uint8_t *body, size_t n)
{
    unsigned ff = 0;
    for (size_t i = 0; i < n; i++) {
        if (body[i] == 0xFF) {
            ff++;
        } else {
            if (ff >= 2 && body[i] == 0xFD) {
                if (i + 1 == n || body[i + 1] != 0xFD)
                    return 0;
                i++;
            }
            ff = 0;
        }
    }
    return 1;
}

static struct dxl_step read_on(uint8_t *held, size_t *count, const uint8_t *chunk, size_t n, uint8_t *packet, int closed)
{
    struct dxl_step step = {0, 0, DXL_NO_EVENT, 0};
    if (*count > DXL_MAX_HELD) {
        step.kind = DXL_BAD_READER;
        return step;
    }
    struct row row = {held, chunk, *count, *count + n};
    size_t at = 0;
    /* No event is decided before the candidates looked at are whole, also one that a packet inside it ends before. */
    size_t decided = *count;
    for (; at < row.all; at++) {
        size_t size = 0;
        enum verdict verdict = look(&row, at, &size);
        if (verdict == WAITS && !closed)
            break;
        if (verdict != WHOLE)
            continue;
        if (decided < at + size)
            decided = at + size;
        copy(&row, at, size, packet);
        /* going on from the checksum of FF FF FD 00, as ours does */
        uint16_t crc = baseline_crc16(0x0E28, packet + 4, size - 6);
        int right = packet[size - 2] == (crc & 255) && packet[size - 1] == crc >> 8;
        if (right && !well_stuffed(packet + BEFORE_BODY, size - BEFORE_BODY - 2))
            continue;
        step.taken = decided - *count;
        step.id = packet[4];
        if (right) {
            step.kind = DXL_PACKET;
            step.count = size;
        } else {
            step.kind = DXL_BAD_CHECKSUM;
        }
        end_packet(packet, step.count, DXL_MAX_PACKET);
        hold(&row, right ? at + size : at + 1, decided, held, count, DXL_MAX_HELD);
        return step;
    }
    end_packet(packet, 0, DXL_MAX_PACKET);
    step.taken = n;
    hold(&row, at, row.all, held, count, DXL_MAX_HELD);
    return step;
}

struct dxl_step baseline_feed(uint8_t held[1030], size_t *count, const uint8_t *chunk, size_t n, uint8_t packet[1031])
{
    return read_on(held, count, chunk, n, packet, 0);
}

struct dxl_step baseline_gap(uint8_t held[1030], size_t *count, uint8_t packet[1031])
{
    static const uint8_t none[1];
    return read_on(held, count, none, 0, packet, 1);
}

struct dxl_step baseline_reader_feed(struct dxl_reader *reader, const uint8_t *chunk, size_t n, uint8_t packet[1031])
{
    return baseline_feed(reader->bytes, &reader->count, chunk, n, packet);
}

struct dxl_step baseline_reader_gap(struct dxl_reader *reader, uint8_t packet[1031])
{
    return baseline_gap(reader->bytes, &reader->count, packet);
}

struct fed_value baseline_feed_value(const uint8_t held[1030], size_t count, const uint8_t *chunk, size_t n)
{
    struct fed_value fed;
    memcpy(fed.reader.bytes, held, sizeof fed.reader.bytes);
    fed.reader.count = count;
    memset(fed.packet, 0, sizeof fed.packet);
    fed.step = read_on(fed.reader.bytes, &fed.reader.count, chunk, n, fed.packet, 0);
    return fed;
}

/* The row is the segment alone, and nothing is copied. */
struct dxl_event baseline_next_event(const uint8_t *segment, size_t n, size_t from)
{
    struct row row = {segment, segment, 0, n};
    for (size_t at = from; at < n; at++) {
        size_t size = 0;
        if (look(&row, at, &size) != WHOLE)
            continue;
        const uint8_t *packet = segment + at;
        uint16_t crc = baseline_crc16(0x0E28, packet + 4, size - 6);
        if (packet[size - 2] != (crc & 255) || packet[size - 1] != crc >> 8)
            return (struct dxl_event){at, 0, at + 1, DXL_BAD_CHECKSUM, packet[4]};
        if (well_stuffed(packet + BEFORE_BODY, size - BEFORE_BODY - 2))
            return (struct dxl_event){at, size, at + size, DXL_PACKET, packet[4]};
    }
    return (struct dxl_event){0, 0, 0, DXL_NO_EVENT, 0};
}
