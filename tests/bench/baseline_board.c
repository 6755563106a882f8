#include <string.h>

#include "baseline.h"
#include "candidate.h"
#include "row.h"

enum { ID = 7, HIGHEST_ID = 252, MOST_REGISTERED = 8, AROUND_BODY = 9 };

/* Whether a body is well stuffed, and then how many bytes of stuffing it has: mostly none, and it can stay as it is. */
static int well_stuffed(const uint8_t *body, size_t n, size_t *stuffing)
{
    size_t ff = 0, places = 0;
    for (size_t i = 0; i < n; i++) {
        if (body[i] == 0xFF) {
            ff++;
            continue;
        }
        if (ff >= 2 && body[i] == 0xFD) {
            if (++i == n || body[i] != 0xFD)
                return 0;
            places++;
        }
        ff = 0;
    }
    *stuffing = places;
    return 1;
}

/* Leaves out the byte behind each FF FF FD. */
static void remove_stuffing(uint8_t *body, size_t n)
{
    size_t ff = 0;
    uint8_t *next = body;
    for (size_t i = 0; i < n; i++) {
        uint8_t byte = body[i];
        *next++ = byte;
        if (ff >= 2 && byte == 0xFD)
            i++;
        ff = byte == 0xFF ? ff + 1 : 0;
    }
}

/*
 * A candidate's bytes side by side. One that begins in the held bytes and ends in the chunk is completed behind the held ones, of
 * which there are so many more then; the packet buffer takes one for which they have no room.
 */
static const uint8_t *side_by_side(struct row *row, size_t at, size_t size, uint8_t *held, uint8_t *packet)
{
    if (at >= row->count)
        return row->chunk + (at - row->count);
    if (at + size > DXL_MAX_HELD) {
        copy(row, at, size, packet);
        return packet;
    }
    if (at + size > row->count) {
        size_t more = at + size - row->count;
        memcpy(held + row->count, row->chunk, more);
        row->count += more;
        row->chunk += more;
    }
    return held + at;
}

/* Of a candidate that is all there; no event where its checksum is right and its stuffing is not. */
static uint8_t judged(const uint8_t *bytes, size_t size, size_t *stuffing)
{
    /* going on from the checksum of FF FF FD 00, as ours does */
    uint16_t crc = baseline_crc16(0x0E28, bytes + 4, size - 6);
    if (bytes[size - 2] != (crc & 255) || bytes[size - 1] != crc >> 8)
        return DXL_BAD_CHECKSUM;
    return well_stuffed(bytes + BEFORE_BODY, size - AROUND_BODY, stuffing) ? DXL_PACKET : DXL_NO_EVENT;
}

/* The row's bytes between two offsets are held from now on; what they leave behind them is 0, and the rest stays. */
static void keep(const struct row *row, size_t from, size_t to, uint8_t *held, size_t *count)
{
    size_t n = to - from, reached = to < DXL_MAX_HELD ? to : DXL_MAX_HELD;
    if (from > 0)
        copy(row, from, n, held);
    else if (to > row->count)
        memcpy(held + row->count, row->chunk, to - row->count);
    if (reached > n)
        memset(held + n, 0, reached - n);
    *count = n;
}

/* The reader, which clears no more than it has to. */
static struct dxl_step read_on(uint8_t *held, size_t *count, const uint8_t *chunk, size_t n, uint8_t *packet, int closed,
                               size_t *stuffing)
{
    struct dxl_step step = {n, 0, DXL_NO_EVENT, 0};
    struct row row = {held, chunk, *count, *count + n};
    size_t on = 0, size = 0, before = *count, decided = *count;
    for (; on < row.all; on++) {
        enum verdict verdict = look(&row, on, &size);
        if (verdict == WAITS && !closed)
            break;
        if (verdict != WHOLE)
            continue;
        if (decided < on + size)
            decided = on + size;
        const uint8_t *bytes = side_by_side(&row, on, size, held, packet);
        step.kind = judged(bytes, size, stuffing);
        if (step.kind == DXL_NO_EVENT)
            continue;
        step.taken = decided - before;
        step.id = bytes[4];
        step.count = step.kind == DXL_PACKET ? size : 0;
        if (bytes != packet)
            memcpy(packet, bytes, step.count);
        on += step.kind == DXL_PACKET ? size : 1;
        break;
    }
    size_t end = before + step.taken;
    keep(&row, on, end, held, count);
    if (end > DXL_MAX_HELD)
        memset(packet + step.count, 0, DXL_MAX_PACKET - step.count);
    return step;
}

/* 0, or the caller's fault. */
static uint8_t fault(size_t count, const uint8_t *table, const struct dxl_registered *registered)
{
    if (count > DXL_MAX_HELD)
        return DXL_BAD_READER;
    if (table[ID] > HIGHEST_ID)
        return DXL_BAD_TABLE_ID;
    return registered->count > MOST_REGISTERED ? DXL_BAD_REGISTERED : 0;
}

/* The event, if there is one, is carried out. */
static void hear(struct dxl_board_step *told, uint8_t *packet, size_t stuffing, uint8_t *table)
{
    uint8_t *body = packet + BEFORE_BODY, number;
    int own = told->id == table[ID];
    if (told->kind == DXL_PACKET) {
        size_t n = told->count - AROUND_BODY;
        if (stuffing > 0)
            remove_stuffing(body, n);
        if (own || told->id == DXL_BROADCAST_ID)
            told->instruction = body[0];
        told->reply = baseline_reply(table, &told->registered, DXL_PACKET, told->id, body, n - stuffing, &told->error);
    } else if (told->kind == DXL_BAD_CHECKSUM) {
        told->error = own ? DXL_ERROR_CHECKSUM : 0;
        told->reply = baseline_reply(table, &told->registered, DXL_BAD_CHECKSUM, told->id, body, 0, &number);
    }
}

static struct dxl_board_step one_call(uint8_t *held, size_t *count, const uint8_t *chunk, size_t n, int closed, uint8_t *packet,
                                      uint8_t *table, const struct dxl_registered *registered)
{
    struct dxl_board_step told = {.kind = fault(*count, table, registered), .registered = *registered};
    size_t stuffing = 0;
    if (told.kind != 0)
        return told;
    struct dxl_step step = read_on(held, count, chunk, n, packet, closed, &stuffing);
    told.taken = step.taken;
    told.count = step.count;
    told.kind = step.kind;
    told.id = step.id;
    hear(&told, packet, stuffing, table);
    return told;
}

struct dxl_board_step baseline_board_feed_parts(uint8_t held[1030], size_t *count, const uint8_t *chunk, size_t n,
                                                uint8_t packet[1031], uint8_t table[136], struct dxl_registered registered)
{
    return one_call(held, count, chunk, n, 0, packet, table, &registered);
}

struct dxl_board_step baseline_board_gap_parts(uint8_t held[1030], size_t *count, uint8_t packet[1031], uint8_t table[136],
                                               struct dxl_registered registered)
{
    static const uint8_t none[1];
    return one_call(held, count, none, 0, 1, packet, table, &registered);
}
