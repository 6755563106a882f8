#include <string.h>

#include "baseline.h"
#include "lines.h"

void draw(uint8_t *bytes, size_t n)
{
    uint32_t seed = 1;
    for (size_t i = 0; i < n; i++) {
        seed = seed * 1664525u + 1013904223u;
        bytes[i] = (uint8_t)(seed >> 24);
    }
}

void draw_longest(uint8_t params[LONGEST_PARAMS])
{
    draw(params, LONGEST_PARAMS);
    for (size_t i = 0; i < LONGEST_PARAMS; i++)
        params[i] = params[i] == 0xFF ? 0 : params[i];
    for (size_t i = 50; i < LONGEST_PARAMS; i += 100)
        memcpy(params + i, "\xFF\xFF\xFD", 3);
}

/* Packets of 14 bytes, one after the other. */
static size_t packets_of_14(uint8_t *line, size_t n)
{
    static const uint8_t params[] = {0x00, 0x06, 0x04, 0x26};
    size_t at = 0;
    for (uint8_t id = 0; at + 14 <= n; id = id < 252 ? id + 1 : 0)
        at += (size_t)baseline_encode(id, 0x55, params, sizeof params, line, n, at);
    return at;
}

/* Packets of every length, most of them short, some with bytes to stuff. */
static size_t mixed_packets(uint8_t *line, size_t n)
{
    static uint8_t drawn[8192];
    size_t at = 0;
    draw(drawn, sizeof drawn);
    for (size_t i = 0;; i++) {
        size_t n_params = drawn[i] % 8 == 0 ? 4u * drawn[i + 1] : drawn[i + 1] % 24u;
        uint8_t params[1020];
        memcpy(params, drawn + i, n_params);
        if (n_params >= 3 && drawn[i + 2] % 4 == 0)
            memcpy(params + n_params / 2 - 1, "\xFF\xFF\xFD", 3);
        int64_t count = baseline_encode(drawn[i] % 253, 0x03, params, n_params, line, n, at);
        if (count < 0)
            return at;
        at += (size_t)count;
    }
}

/* Some bytes again and again, as often as all of them fit. */
static size_t repeat(const uint8_t *bytes, size_t n_bytes, uint8_t *line, size_t n)
{
    size_t at = 0;
    for (; at + n_bytes <= n; at += n_bytes)
        memcpy(line + at, bytes, n_bytes);
    return at;
}

/* Headers seven bytes apart, each of which promises the longest packet: a checksum of 1,029 bytes for every seven. */
static size_t worst_noise(uint8_t *line, size_t n)
{
    static const uint8_t header[7] = {0xFF, 0xFF, 0xFD, 0x00, 0x01, 0x00, 0x04};
    return repeat(header, sizeof header, line, n < 16384 ? n : 16384);
}

static size_t random_bytes(uint8_t *line, size_t n)
{
    draw(line, n);
    return n;
}

static size_t all_00(uint8_t *line, size_t n)
{
    static const uint8_t byte[1] = {0x00};
    return repeat(byte, sizeof byte, line, n);
}

/* Now and then these are a whole header with ID 0 and a length of 253 or 255. */
static size_t random_header_bytes(uint8_t *line, size_t n)
{
    static const uint8_t bytes[3] = {0xFF, 0xFD, 0x00};
    draw(line, n);
    for (size_t i = 0; i < n; i++)
        line[i] = bytes[line[i] % 3];
    return n;
}

static size_t all_ff(uint8_t *line, size_t n)
{
    static const uint8_t byte[1] = {0xFF};
    return repeat(byte, sizeof byte, line, n);
}

static size_t repeated_ff_ff_fd(uint8_t *line, size_t n)
{
    static const uint8_t bytes[3] = {0xFF, 0xFF, 0xFD};
    return repeat(bytes, sizeof bytes, line, n);
}

const struct line_kind lines[LINES] = {
    [PACKETS_OF_14] = {"packets of 14", packets_of_14},
    [MIXED_PACKETS] = {"mixed packets", mixed_packets},
    [WORST_NOISE] = {"worst noise", worst_noise},
    [RANDOM_BYTES] = {"random bytes", random_bytes},
    [ALL_00] = {"all 00", all_00},
    [RANDOM_HEADER_BYTES] = {"random header bytes", random_header_bytes},
    [ALL_FF] = {"all FF", all_ff},
    [REPEATED_FF_FF_FD] = {"repeated FF FF FD", repeated_ff_ff_fd},
};

size_t packets_v1(uint8_t *line, size_t n)
{
    size_t at = 0;
    for (uint8_t id = 0; at + 10 <= n; id = id < 252 ? id + 1 : 0, at += 10) {
        uint8_t packet[10] = {0xFF, 0xFF, id, 6, 0x00, 0x06, 0x04, 0x26, 0x11, 0};
        for (size_t i = 2; i < 9; i++)
            packet[9] = (uint8_t)(packet[9] + packet[i]);
        packet[9] ^= 0xFF;
        memcpy(line + at, packet, sizeof packet);
    }
    return at;
}

size_t worst_noise_v1(uint8_t *line, size_t n)
{
    static const uint8_t front[] = {0xFF, 0xFF, 0x01};
    return repeat(front, sizeof front, line, n);
}

/*
 * Headers seven bytes apart, each of a packet whose checksum is right and whose body is not well stuffed, since the next header
 * stands in it. The last header has no packet. The checksums follow in the order of the headers.
 */
void worst_call(uint8_t line[WORST_CALL])
{
    enum { FRONT = 7, PACKETS = 112 };
    static const uint8_t header[FRONT] = {0xFF, 0xFF, 0xFD, 0x00, 0x01, 0x00, 0x00};
    size_t first_end = FRONT * (PACKETS + 1) + 2;
    repeat(header, FRONT, line, first_end - 2);
    for (size_t i = 0; i < PACKETS; i++) {
        size_t length = first_end + 2 * i - FRONT * (i + 1);
        line[FRONT * i + 5] = (uint8_t)length;
        line[FRONT * i + 6] = (uint8_t)(length >> 8);
    }
    for (size_t i = 0; i < PACKETS; i++) {
        size_t end = first_end + 2 * i;
        uint16_t crc = baseline_crc16(0, line + FRONT * i, end - 2 - FRONT * i);
        line[end - 2] = (uint8_t)crc;
        line[end - 1] = (uint8_t)(crc >> 8);
    }
}
