#include "baseline.h"

/* Entry i is the checksum of the byte i. Checksums from 0 add up bit by bit, so eight numbers give all entries. */
#define BIT(i, bit, crc) (((i) >> (bit)) & 1 ? (crc) : 0)
#define LOW_HALF(i) (BIT(i, 0, 0x8005) ^ BIT(i, 1, 0x800F) ^ BIT(i, 2, 0x801B) ^ BIT(i, 3, 0x8033))
#define HIGH_HALF(i) (BIT(i, 4, 0x8063) ^ BIT(i, 5, 0x80C3) ^ BIT(i, 6, 0x8183) ^ BIT(i, 7, 0x8303))
#define ENTRY(i) (LOW_HALF(i) ^ HIGH_HALF(i))
#define FOUR(i) ENTRY(i), ENTRY((i) + 1), ENTRY((i) + 2), ENTRY((i) + 3)
#define SIXTEEN(i) FOUR(i), FOUR((i) + 4), FOUR((i) + 8), FOUR((i) + 12)
#define SIXTY_FOUR(i) SIXTEEN(i), SIXTEEN((i) + 16), SIXTEEN((i) + 32), SIXTEEN((i) + 48)

static const uint16_t table[256] = {SIXTY_FOUR(0), SIXTY_FOUR(64), SIXTY_FOUR(128), SIXTY_FOUR(192)};

uint16_t baseline_crc16(uint16_t start, const uint8_t *bytes, size_t n)
{
    uint16_t crc = start;
    for (size_t i = 0; i < n; i++)
        crc = (uint16_t)(crc << 8) ^ table[(crc >> 8) ^ bytes[i]];
    return crc;
}

/* Half a byte at a time; the entries are the first sixteen of the large table. */
uint16_t baseline_crc16_small(uint16_t start, const uint8_t *bytes, size_t n)
{
    static const uint16_t halves[16] = {SIXTEEN(0)};
    uint16_t crc = start;
    for (size_t i = 0; i < n; i++) {
        crc = (uint16_t)(crc << 4) ^ halves[(crc >> 12) ^ (bytes[i] >> 4)];
        crc = (uint16_t)(crc << 4) ^ halves[(crc >> 12) ^ (bytes[i] & 15)];
    }
    return crc;
}

enum { LONGEST_BODY = 1022, AROUND_BODY = 9 };

/* A count of the FF at the end of what was seen, up to 2: FF FF FD is complete where FD comes at 2. */
static unsigned ff_after(unsigned ff, uint8_t byte)
{
    if (byte != 0xFF)
        return 0;
    return ff < 2 ? ff + 1 : 2;
}

int64_t baseline_encode(uint8_t id, uint8_t instruction, const uint8_t *params, size_t n_params, uint8_t *out, size_t n_out,
                        size_t at)
{
    if (id == 253 || id == 255)
        return -11;
    if (n_params >= LONGEST_BODY)
        return -12;

    size_t body = 1 + n_params;
    unsigned ff = ff_after(0, instruction);
    for (size_t i = 0; i < n_params; i++) {
        if (ff == 2 && params[i] == 0xFD)
            body++;
        ff = ff_after(ff, params[i]);
    }
    if (body > LONGEST_BODY)
        return -12;
    size_t count = body + AROUND_BODY;
    if (at > n_out || n_out - at < count)
        return -13;

    uint8_t *packet = out + at;
    packet[0] = 0xFF;
    packet[1] = 0xFF;
    packet[2] = 0xFD;
    packet[3] = 0x00;
    packet[4] = id;
    packet[5] = (uint8_t)(body + 2);
    packet[6] = (uint8_t)((body + 2) >> 8);
    packet[7] = instruction;
    uint8_t *next = packet + 8;
    ff = ff_after(0, instruction);
    for (size_t i = 0; i < n_params; i++) {
        *next++ = params[i];
        if (ff == 2 && params[i] == 0xFD)
            *next++ = 0xFD;
        ff = ff_after(ff, params[i]);
    }
    /* going on from the checksum of FF FF FD 00, as ours does */
    uint16_t crc = baseline_crc16(0x0E28, packet + 4, count - 6);
    next[0] = (uint8_t)crc;
    next[1] = (uint8_t)(crc >> 8);
    return (int64_t)count;
}
