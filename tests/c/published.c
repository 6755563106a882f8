/*
 * Calls the archive from C, with every packet that the maker's pages print: its checksum, and its body unstuffed and encoded
 * again. Those of Protocol 1.0 and Mercury are encoded again, and read in chunks.
 * usage: published PACKETS PACKETS_V1
 */
#include <stdio.h>
#include <stdlib.h>
#include <string.h>

#include "mednukals.h"

enum { MAX_BYTES = 64, MAX_LINE = 512 };

static unsigned failures;

static void expect(int holds, const char *what, unsigned line)
{
    if (!holds) {
        fprintf(stderr, "C: line %u: %s\n", line, what);
        failures++;
    }
}

/* The bytes of a row of hexadecimal numbers; 0 where the row holds none or anything else. */
static size_t bytes_of(const char *text, uint8_t *bytes)
{
    size_t n = 0;
    for (;;) {
        char *end;
        unsigned long value = strtoul(text, &end, 16);
        if (end == text)
            return *text == '\0' || *text == '\n' ? n : 0;
        if (value > 255 || n == MAX_BYTES)
            return 0;
        bytes[n++] = (uint8_t)value;
        text = end;
    }
}

static int ends_with_checksum(const uint8_t *bytes, size_t n)
{
    uint16_t crc = dxl_crc16(0, bytes, n - 2);
    return bytes[n - 2] == (crc & 255) && bytes[n - 1] == crc >> 8;
}

/* The packet's body, unstuffed and encoded again, is the packet, written to its place and nowhere else. */
static int encodes_again(const uint8_t *packet, size_t n)
{
    enum { AT = 3, REST = 0xEE };
    uint8_t body[MAX_BYTES], out[AT + MAX_BYTES + 1];
    int64_t count = dxl_unstuff(packet + 7, n - 9, body, sizeof body);
    memset(out, REST, sizeof out);
    if (count < 1 || dxl_encode(packet[4], body[0], body + 1, (size_t)count - 1, out, sizeof out, AT) != (int64_t)n)
        return 0;
    for (size_t i = 0; i < sizeof out; i++) {
        uint8_t wanted = i >= AT && i < AT + n ? packet[i - AT] : REST;
        if (out[i] != wanted)
            return 0;
    }
    return 1;
}

/* Bits flipped in up to three bytes from `at` on: the checksum by the flips is that of a new pass over all n bytes. */
static int flipped_as_summed_again(const uint8_t *bytes, size_t n, size_t at)
{
    static const uint8_t flips[MAX_BYTES] = {0x10, 0, 0x81};
    uint8_t changed[MAX_BYTES];
    size_t covered = n - at < 3 ? n - at : 3;
    uint16_t crc = dxl_crc16(0, bytes, n);
    memcpy(changed, bytes, n);
    for (size_t i = 0; i < covered; i++)
        changed[at + i] ^= flips[i];
    return dxl_crc16_flipped(crc, flips, covered, n - at - covered) == dxl_crc16(0, changed, n)
           && dxl_crc16_flipped(crc, flips, 0, SIZE_MAX) == crc;
}

typedef int64_t encoder(uint8_t id, uint8_t instruction, const uint8_t *params, size_t n_params, uint8_t *out, size_t n_out,
                        size_t at);

/* The parts of a packet of Protocol 1.0 or Mercury, encoded again, are the packet. */
static int encodes_v1_again(encoder *encode, const uint8_t *packet, size_t n)
{
    uint8_t out[MAX_BYTES];
    return n >= 6 && encode(packet[2], packet[4], packet + 5, n - 6, out, sizeof out, 0) == (int64_t)n
           && memcmp(out, packet, n) == 0;
}

struct reader_v1 {
    struct dxl_step (*feed)(uint8_t held[258], size_t *count, const uint8_t *chunk, size_t n, uint8_t packet[259]);
    struct dxl_step (*gap)(uint8_t held[258], size_t *count, uint8_t packet[259]);
};

static const struct reader_v1 p1 = {dxl_p1_feed, dxl_p1_gap}, mercury = {dxl_mercury_feed, dxl_mercury_gap};

/* Behind some FF and a front that promises more than there is, in two chunks: the gap gives the packet, and then nothing. */
static int reads_v1(const struct reader_v1 *reader, const uint8_t *bytes, size_t n)
{
    static const uint8_t noise[] = {0xFF, 0xFF, 0xFF, 0xFF, 0x05, 0xFF};
    uint8_t held[DXL_V1_MAX_HELD], packet[DXL_V1_MAX_PACKET];
    size_t count = 0, cut = n / 2;
    struct dxl_step step = reader->feed(held, &count, noise, sizeof noise, packet);
    if (step.kind != DXL_NO_EVENT || step.taken != sizeof noise || count != 4)
        return 0;
    step = reader->feed(held, &count, bytes, cut, packet);
    if (step.kind != DXL_NO_EVENT || reader->feed(held, &count, bytes + cut, n - cut, packet).kind != DXL_NO_EVENT)
        return 0;
    step = reader->gap(held, &count, packet);
    if (step.kind != DXL_PACKET || step.id != bytes[2] || step.count != n || memcmp(packet, bytes, n) != 0 || packet[n] != 0)
        return 0;
    return reader->gap(held, &count, packet).kind == DXL_NO_EVENT && count == 0 && packet[0] == 0;
}

/* A damaged packet is told by its ID; a record with too many bytes is refused and stays. */
static void reads_no_packet_v1(const struct reader_v1 *reader)
{
    static const uint8_t damaged[] = {0xFF, 0xFF, 0x01, 0x04, 0x02, 0x2B, 0x01, 0xCD};
    uint8_t held[DXL_V1_MAX_HELD] = {7}, packet[DXL_V1_MAX_PACKET] = {8};
    size_t count = DXL_V1_MAX_HELD + 1;
    struct dxl_step step = reader->feed(held, &count, damaged, sizeof damaged, packet);
    expect(step.kind == DXL_BAD_READER && step.taken == 0, "259 held bytes are not refused", 0);
    expect(reader->gap(held, &count, packet).kind == DXL_BAD_READER, "259 held bytes are not refused at a gap", 0);
    expect(count == DXL_V1_MAX_HELD + 1 && held[0] == 7 && packet[0] == 8, "a refused call has changed what was lent", 0);
    count = 0;
    step = reader->feed(held, &count, damaged, sizeof damaged, packet);
    expect(step.kind == DXL_BAD_CHECKSUM && step.id == 1 && step.count == 0, "a damaged packet is not told", 0);
    expect(step.taken == sizeof damaged && count == sizeof damaged - 1 && packet[0] == 0, "a damaged packet is skipped", 0);
}

static void refusals_v1(void)
{
    static const uint8_t params[254];
    uint8_t out[DXL_V1_MAX_PACKET];
    expect(dxl_p1_encode(253, 1, params, 0, out, sizeof out, 0) == 6, "Protocol 1.0 does not take the ID 253", 0);
    expect(dxl_p1_encode(255, 1, params, sizeof params, out, 0, 0) == -DXL_BAD_ID, "Protocol 1.0 takes the ID 255", 0);
    expect(dxl_mercury_encode(253, 1, params, sizeof params, out, 0, 0) == -DXL_BAD_ID, "Mercury takes the ID 253", 0);
    expect(dxl_mercury_encode(252, 1, params, sizeof params, out, 0, 0) == -DXL_TOO_LONG, "254 parameters are written", 0);
    expect(dxl_p1_encode(254, 1, params, 253, out, sizeof out, 0) == DXL_V1_MAX_PACKET, "253 parameters are not written", 0);
    expect(dxl_p1_encode(254, 1, params, 253, out, sizeof out, 1) == -DXL_NO_ROOM, "258 bytes are room for 259", 0);
}

static void refusals(void)
{
    uint8_t out[10] = {0};
    const uint8_t cut[] = {0x03, 0xFF, 0xFF, 0xFD};
    expect(dxl_encode(253, 1, cut, 0, out, 0, SIZE_MAX) == -DXL_BAD_ID, "ID 253 is not refused", 0);
    expect(dxl_encode(254, 1, cut, 0, out, 9, 0) == -DXL_NO_ROOM, "nine bytes are room for ten", 0);
    expect(dxl_encode(254, 1, cut, 0, out, sizeof out, SIZE_MAX) == -DXL_NO_ROOM, "there is room at the largest offset", 0);
    expect(dxl_unstuff(cut, sizeof cut, out, 0) == -DXL_BAD_STUFFING, "wrong stuffing is not refused", 0);
    expect(dxl_unstuff(cut, 3, out, 2) == -DXL_NO_ROOM, "two bytes are room for three", 0);
}

/* The next row of packets and its number, from 1 on: how many bytes it has, or 0 at the file's end. */
static size_t next_row(FILE *file, char line[MAX_LINE], uint8_t *bytes, unsigned *number)
{
    while (fgets(line, MAX_LINE, file) != NULL) {
        const char *hex = strrchr(line, '|');
        size_t n = hex == NULL ? 0 : bytes_of(hex + 1, bytes);
        ++*number;
        if (line[0] == '#')
            continue;
        if (n >= 2)
            return n;
        expect(0, "is not a row of packets", *number);
    }
    return 0;
}

/* How many packets of Protocol 1.0 and Mercury there are. */
static unsigned published_v1(FILE *file)
{
    char line[MAX_LINE];
    uint8_t bytes[MAX_BYTES];
    unsigned number = 0, packets = 0;
    for (size_t n; (n = next_row(file, line, bytes, &number)) != 0; packets++) {
        expect(encodes_v1_again(dxl_p1_encode, bytes, n), "a packet is not what the encoder of Protocol 1.0 writes", number);
        expect(encodes_v1_again(dxl_mercury_encode, bytes, n), "a packet is not what Mercury's encoder writes", number);
        expect(reads_v1(&p1, bytes, n), "a packet is not read in Protocol 1.0", number);
        expect(reads_v1(&mercury, bytes, n), "a packet is not read in Mercury", number);
    }
    expect(packets != 0, "the file has no packet of Protocol 1.0", number);
    return packets;
}

int main(int argc, char **argv)
{
    char line[MAX_LINE];
    uint8_t bytes[MAX_BYTES];
    unsigned number = 0, good = 0, misprints = 0, old;
    FILE *file = argc == 3 ? fopen(argv[1], "r") : NULL;
    FILE *file_v1 = argc == 3 ? fopen(argv[2], "r") : NULL;
    if (file == NULL || file_v1 == NULL) {
        fprintf(stderr, "C: no files of packets to read\n");
        return 2;
    }
    for (size_t n; (n = next_row(file, line, bytes, &number)) != 0;) {
        if (strstr(line, "| good |") != NULL) {
            size_t cut = number % (n - 1);
            uint16_t whole = dxl_crc16(0, bytes, n - 2);
            expect(ends_with_checksum(bytes, n), "a good packet's checksum is wrong", number);
            uint16_t in_two = dxl_crc16(dxl_crc16(0, bytes, cut), bytes + cut, n - 2 - cut);
            expect(in_two == whole, "two parts give another checksum", number);
            expect(dxl_crc16(whole, bytes, 0) == whole, "no bytes change the checksum", number);
            expect(flipped_as_summed_again(bytes, n - 2, cut), "flipped bits give another checksum", number);
            expect(n >= 10 && encodes_again(bytes, n), "a good packet is not what the encoder writes", number);
            good++;
        } else if (strstr(line, "| misprint |") != NULL) {
            expect(!ends_with_checksum(bytes, n), "a misprint's checksum is right", number);
            misprints++;
        }
    }
    fclose(file);
    old = published_v1(file_v1);
    fclose(file_v1);
    refusals();
    refusals_v1();
    reads_no_packet_v1(&p1);
    reads_no_packet_v1(&mercury);
    if (good == 0 || misprints == 0)
        expect(0, "the file has no good packet or no misprint", number);
    if (failures != 0)
        return 1;
    printf("C: %u published packets have the right checksum and are encoded again as printed\n", good);
    printf("C: %u misprints have a wrong one\n", misprints);
    printf("C: %u packets of Protocol 1.0 and Mercury are encoded again as they stand, and read\n", old);
    return 0;
}
