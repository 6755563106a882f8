/* What the plain C readers of all protocols share: bytes that are held, and those of a chunk behind them. */
#ifndef ROW_H
#define ROW_H

#include <stddef.h>
#include <stdint.h>
#include <string.h>

/* The held bytes and those of the chunk after them, as one row that is not joined in memory. */
struct row {
    const uint8_t *held, *chunk;
    size_t count, all;
};

static inline uint8_t byte_at(const struct row *row, size_t i)
{
    return i < row->count ? row->held[i] : row->chunk[i - row->count];
}

/* memmove, because the row's held bytes go back to where they come from. */
static inline void copy(const struct row *row, size_t from, size_t n, uint8_t *to)
{
    size_t of_held = from >= row->count ? 0 : row->count - from < n ? row->count - from : n;
    if (of_held > 0)
        memmove(to, row->held + from, of_held);
    if (n > of_held)
        memcpy(to + of_held, row->chunk + (from + of_held - row->count), n - of_held);
}

/* What is held from now on, of a record with so many bytes: the row's bytes between two offsets. */
static inline void hold(const struct row *row, size_t from, size_t to, uint8_t *held, size_t *count, size_t most)
{
    copy(row, from, to - from, held);
    *count = to - from;
    memset(held + *count, 0, most - *count);
}

static inline void end_packet(uint8_t *packet, size_t count, size_t most)
{
    memset(packet + count, 0, most - count);
}

/* Of a candidate: none, one that lacks bytes, and one whose bytes are all there. */
enum verdict { NOTHING, WAITS, WHOLE };

#endif
