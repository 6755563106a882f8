/* Line logs in plain C; the question reads every segment, as one would without an index. */
#include <string.h>

#include "baseline.h"

static uint32_t number_at(const uint8_t *at)
{
    return at[0] | (uint32_t)at[1] << 8 | (uint32_t)at[2] << 16 | (uint32_t)at[3] << 24;
}

static void put_number(uint8_t *at, uint32_t number)
{
    for (int i = 0; i < 4; i++)
        at[i] = (uint8_t)(number >> 8 * i);
}

static void mark(uint32_t index[254], const uint8_t *segment, size_t n, uint32_t number)
{
    struct dxl_event event = baseline_next_event(segment, n, 0);
    while (event.kind != DXL_NO_EVENT) {
        if (event.kind == DXL_PACKET)
            index[event.id < 253 ? event.id : 253] = number;
        event = baseline_next_event(segment, n, event.next);
    }
}

int64_t baseline_log_write(const uint8_t *bytes, size_t n, const uint32_t *lengths, size_t n_segments, uint8_t *out, size_t n_out)
{
    uint32_t index[254] = {0};
    uint64_t start = DXL_LOG_FRONT + DXL_LOG_ENTRY * (uint64_t)n_segments, total = 0;
    for (size_t i = 0; i < n_segments; i++)
        total += lengths[i];
    if (total != n || start + n > UINT32_MAX)
        return -DXL_BAD_LOG;
    if (n_out < start + n)
        return -DXL_NO_ROOM;
    memcpy(out + start, bytes, n);
    put_number(out, (uint32_t)n_segments);
    put_number(out + 4, 16);
    put_number(out + 8, 254);
    put_number(out + 12, (uint32_t)(16 + 8 * n_segments));
    for (size_t i = 0; i < n_segments; i++) {
        put_number(out + 16 + 8 * i, (uint32_t)start);
        put_number(out + 20 + 8 * i, lengths[i]);
        mark(index, bytes, lengths[i], (uint32_t)i + 1);
        bytes += lengths[i];
        start += lengths[i];
    }
    for (size_t i = 0; i < 254; i++)
        put_number(out + 16 + 8 * n_segments + 4 * i, index[i]);
    return (int64_t)start;
}

/* Of a log whose layout is right. */
int64_t baseline_log_check(const uint8_t *log, size_t n)
{
    uint32_t index[254] = {0};
    size_t segments = number_at(log);
    (void)n;
    for (size_t i = 0; i < segments; i++)
        mark(index, log + number_at(log + 16 + 8 * i), number_at(log + 20 + 8 * i), (uint32_t)i + 1);
    for (size_t i = 0; i < 254; i++)
        if (number_at(log + 16 + 8 * segments + 4 * i) != index[i])
            return -DXL_WRONG_INDEX;
    return 0;
}

struct dxl_found baseline_log_last(const uint8_t *log, size_t n, uint8_t id)
{
    struct dxl_found found = {0, 0, 0};
    size_t segments = number_at(log);
    (void)n;
    for (size_t i = 0; i < segments; i++) {
        const uint8_t *segment = log + number_at(log + 16 + 8 * i);
        size_t length = number_at(log + 20 + 8 * i);
        struct dxl_event event = baseline_next_event(segment, length, 0);
        while (event.kind != DXL_NO_EVENT) {
            if (event.kind == DXL_PACKET && event.id == id)
                found = (struct dxl_found){1, i, event.offset};
            event = baseline_next_event(segment, length, event.next);
        }
    }
    return found;
}

struct dxl_salvaged baseline_log_salvage(const uint8_t *log, size_t n, uint8_t *out, size_t n_out, uint32_t *report, size_t n_report)
{
    struct dxl_salvaged salvaged = {0, 0, 0, 0, 0};
    uint32_t index[254] = {0};
    if (n < DXL_LOG_FRONT || n > UINT32_MAX)
        return (struct dxl_salvaged){-DXL_BAD_LOG_SIZE, 0, 0, 0, 0};
    size_t count = number_at(log), room = (n - DXL_LOG_FRONT) / DXL_LOG_ENTRY, kept = 0, bytes = 0;
    count = count < room ? count : room;
    if (n_out < n || n_report / 2 < count)
        return (struct dxl_salvaged){-DXL_NO_ROOM, 0, 0, 0, 0};
    uint64_t old_end = DXL_LOG_FRONT + DXL_LOG_ENTRY * (uint64_t)count, limit = old_end;
    for (size_t i = 0; i < count; i++) {
        uint64_t start = number_at(log + 16 + 8 * i), end = start + number_at(log + 20 + 8 * i);
        if (start >= limit && end <= n) {
            limit = end;
            kept++;
            bytes += (size_t)(end - start);
            continue;
        }
        report[2 * salvaged.dropped] = (uint32_t)i;
        report[2 * salvaged.dropped + 1] = start < limit ? DXL_BAD_START : DXL_BAD_END;
        salvaged.dropped++;
    }
    size_t at = DXL_LOG_FRONT + DXL_LOG_ENTRY * kept, next = 0;
    for (size_t i = 0, gone = 0; i < count; i++) {
        size_t start = number_at(log + 16 + 8 * i), length = number_at(log + 20 + 8 * i);
        if (gone < salvaged.dropped && report[2 * gone] == i) {
            gone++;
            continue;
        }
        put_number(out + 16 + 8 * next, (uint32_t)at);
        put_number(out + 20 + 8 * next, (uint32_t)length);
        next++;
        memcpy(out + at, log + start, length);
        mark(index, log + start, length, (uint32_t)next);
        at += length;
    }
    put_number(out, (uint32_t)kept);
    put_number(out + 4, 16);
    put_number(out + 8, 254);
    put_number(out + 12, (uint32_t)(16 + 8 * kept));
    for (size_t i = 0; i < 254; i++) {
        put_number(out + 16 + 8 * kept + 4 * i, index[i]);
        salvaged.index_changed += number_at(log + 16 + 8 * count + 4 * i) != index[i];
    }
    salvaged.count = (int64_t)at;
    salvaged.leftover = n - (size_t)old_end - bytes;
    salvaged.header_changed = memcmp(log, out, 16) != 0;
    return salvaged;
}
