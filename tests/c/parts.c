/*
 * The example examples/parts.c beside the encoder: what it sends in parts is, byte for byte, what dxl_encode writes, refusals
 * included, and parameters that need no stuffing are sent from where they lie.
 */
#include <stdio.h>
#include <string.h>

#include "mednukals.h"
#include "parts.h"

enum { MOST = DXL_MAX_PACKET + 8 };

/* What was sent: its bytes joined, in how many parts, and whether one of them lay in the caller's parameters. */
struct sent {
    uint8_t bytes[MOST];
    size_t n, parts, lent;
    const uint8_t *params;
};

static unsigned failures, packets, in_parts;

static void expect(int holds, const char *what, unsigned id, unsigned instruction, size_t n)
{
    if (!holds && failures++ < 10)
        fprintf(stderr, "C: ID %u, instruction %u, %zu parameters: %s\n", id, instruction, n, what);
}

static void gather(void *line, const uint8_t *bytes, size_t n)
{
    struct sent *sent = line;
    if (n <= MOST - sent->n) {
        memcpy(sent->bytes + sent->n, bytes, n);
        sent->n += n;
    }
    sent->parts++;
    sent->lent += bytes == sent->params;
}

static void same_as_encoded(uint8_t id, uint8_t instruction, const uint8_t *params, size_t n)
{
    uint8_t packet[DXL_MAX_PACKET];
    struct sent sent = {{0}, 0, 0, 0, params};
    int64_t wanted = dxl_encode(id, instruction, params, n, packet, sizeof packet, 0);
    int64_t count = send_in_parts(id, instruction, params, n, gather, &sent);
    packets++;
    expect(count == wanted, "another count or refusal", id, instruction, n);
    if (wanted < 0) {
        expect(sent.parts == 0, "a refusal sends", id, instruction, n);
        return;
    }
    expect(sent.n == (size_t)wanted && memcmp(sent.bytes, packet, sent.n) == 0, "other bytes", id, instruction, n);
    if ((size_t)wanted == n + 10) { /* no byte was added */
        expect(sent.parts == 3 && sent.lent == 1, "the parameters are copied", id, instruction, n);
        in_parts++;
    }
}

static uint32_t next(uint32_t *state)
{
    *state = *state * 1664525 + 1013904223;
    return *state >> 16;
}

/* Bytes of which every few are FF FF FD, or none are. */
static void fill(uint8_t *bytes, size_t n, uint32_t *state)
{
    static const uint8_t some[] = {0xFF, 0xFF, 0xFF, 0xFD, 0xFD, 0x00, 0x55, 0x80};
    int plain = next(state) % 2;
    for (size_t i = 0; i < n; i++)
        bytes[i] = plain ? (uint8_t)(next(state) & 0x7F) : some[next(state) % sizeof some];
}

int main(void)
{
    static uint8_t params[1100];
    static const uint8_t marks[] = {0xFF, 0xFF, 0xFD, 0xFD, 0xFF, 0xFF, 0xFF, 0xFD, 0x00, 0xFF, 0xFF};
    uint32_t state = 3;
    for (unsigned id = 0; id < 256; id++)
        for (unsigned instruction = 0; instruction < 256; instruction++)
            same_as_encoded((uint8_t)id, (uint8_t)instruction, marks + 1, id % 3);
    for (size_t from = 0; from < sizeof marks; from++)
        for (size_t n = 0; n <= sizeof marks - from; n++)
            same_as_encoded(1, n % 2 ? 0xFF : 0x03, marks + from, n);
    for (size_t n = 1000; n <= sizeof params; n++) /* around the longest, where 12 begins */
        for (unsigned i = 0; i < 4; i++) {
            fill(params, n, &state);
            same_as_encoded(i == 3 ? 255 : 254, 0x83, params, n);
        }
    for (unsigned i = 0; i < 20000; i++) {
        size_t n = next(&state) % 40;
        fill(params, n, &state);
        same_as_encoded((uint8_t)next(&state), (uint8_t)next(&state), params, n);
    }
    expect(in_parts > packets / 2, "too few packets without stuffing", 0, 0, 0);
    if (failures != 0)
        return 1;
    printf("C: %u packets are sent in parts as dxl_encode writes them, %u of them without a copy\n", packets, in_parts);
    return 0;
}
