/* What the plain C readers of Protocol 2.0 share: the look at a candidate, before its checksum is worth computing. */
#ifndef CANDIDATE_H
#define CANDIDATE_H

#include "row.h"

enum { BEFORE_LENGTH = 5, BEFORE_BODY = 7, SHORTEST_LENGTH = 3, LONGEST_LENGTH = 1024 };

/* Whether all of a candidate's bytes are there, and then how many they are. */
static inline enum verdict look(const struct row *row, size_t at, size_t *size)
{
    static const uint8_t header[4] = {0xFF, 0xFF, 0xFD, 0x00};
    size_t have = row->all - at;
    for (size_t i = 0; i < sizeof header; i++) {
        if (i == have)
            return WAITS;
        if (byte_at(row, at + i) != header[i])
            return NOTHING;
    }
    if (have == sizeof header)
        return WAITS;
    uint8_t id = byte_at(row, at + sizeof header);
    if (id == 253 || id == 255)
        return NOTHING;
    if (have < BEFORE_BODY)
        return WAITS;
    size_t length = byte_at(row, at + BEFORE_LENGTH) | (size_t)byte_at(row, at + BEFORE_LENGTH + 1) << 8;
    if (length < SHORTEST_LENGTH || length > LONGEST_LENGTH)
        return NOTHING;
    *size = BEFORE_BODY + length;
    return have < *size ? WAITS : WHOLE;
}

#endif
