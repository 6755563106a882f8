/*
 * Reads a line of Protocol 1.0 or Mercury, and writes its packets:
 *
 *     old_boards [--mercury] FILE                   print the events of a capture; - is standard input
 *     old_boards [--mercury] --packet ID BYTE...    print the packet with this body, in hex
 *
 * A line for each event:
 *
 *     packet ID BYTE...    the body in hex: instruction, or error byte of a status, and parameters
 *     checksum ID          all bytes of a packet, and the checksum is wrong
 *     end BYTES            the last line: how many bytes were read
 *
 * What is printed behind `packet` is what --packet takes. The capture is one segment, of any length.
 */
#include <errno.h>
#include <stdio.h>
#include <stdlib.h>
#include <string.h>

#include "mednukals.h"

enum { CHUNK = 64, BEFORE_BODY = 4, CHECKSUM = 1, MOST_BODY = 254 };

/* The calls of a protocol. Firmware for one protocol calls them by their names. */
struct protocol {
    int64_t (*encode)(uint8_t id, uint8_t instruction, const uint8_t *params, size_t n_params, uint8_t *out, size_t n_out,
                      size_t at);
    struct dxl_step (*feed)(uint8_t held[258], size_t *count, const uint8_t *chunk, size_t n, uint8_t packet[259]);
    struct dxl_step (*gap)(uint8_t held[258], size_t *count, uint8_t packet[259]);
};

static const struct protocol p1 = {dxl_p1_encode, dxl_p1_feed, dxl_p1_gap};
static const struct protocol mercury = {dxl_mercury_encode, dxl_mercury_feed, dxl_mercury_gap};

/* A reader for one line. All 0 is a fresh start; the calls alone write held and count. */
struct reader {
    uint8_t held[DXL_V1_MAX_HELD];
    size_t count;
    uint8_t packet[DXL_V1_MAX_PACKET];
};

static void print_bytes(const uint8_t *bytes, size_t n)
{
    for (size_t i = 0; i < n; i++)
        printf("%s%02X", i == 0 ? "" : " ", bytes[i]);
    putchar('\n');
}

static void print_event(struct dxl_step step, const uint8_t *packet)
{
    if (step.kind == DXL_PACKET) {
        printf("packet %d ", step.id);
        print_bytes(packet + BEFORE_BODY, step.count - BEFORE_BODY - CHECKSUM);
    } else if (step.kind == DXL_BAD_CHECKSUM) {
        printf("checksum %d\n", step.id);
    } else { /* DXL_BAD_READER: somebody else has written the reader */
        fprintf(stderr, "old_boards: the reader was refused\n");
        exit(1);
    }
}

static void bytes_came(const struct protocol *protocol, struct reader *reader, const uint8_t *chunk, size_t n)
{
    for (;;) {
        struct dxl_step step = protocol->feed(reader->held, &reader->count, chunk, n, reader->packet);
        if (step.kind == DXL_NO_EVENT)
            return;
        chunk += step.taken;
        n -= step.taken; /* and again, even if this is 0 */
        print_event(step, reader->packet);
    }
}

static void line_was_silent(const struct protocol *protocol, struct reader *reader)
{
    for (;;) {
        struct dxl_step step = protocol->gap(reader->held, &reader->count, reader->packet);
        if (step.kind == DXL_NO_EVENT)
            return;
        print_event(step, reader->packet);
    }
}

static int fail(const char *name)
{
    fprintf(stderr, "old_boards: %s: %s\n", name, strerror(errno));
    return 1;
}

/* In chunks, as a UART brings them; the end of the file is the gap. */
static int print_events(const struct protocol *protocol, const char *name)
{
    struct reader reader = {{0}, 0, {0}};
    uint8_t chunk[CHUNK];
    size_t n, all = 0;
    FILE *file = strcmp(name, "-") == 0 ? stdin : fopen(name, "rb");
    if (file == NULL)
        return fail(name);
    while ((n = fread(chunk, 1, sizeof chunk, file)) > 0) {
        bytes_came(protocol, &reader, chunk, n);
        all += n;
    }
    if (ferror(file))
        return fail(name);
    line_was_silent(protocol, &reader);
    printf("end %zu\n", all);
    return 0;
}

/* Whether all of the word is a number up to 255. */
static int read_byte(const char *word, int base, uint8_t *byte)
{
    char *end;
    unsigned long value = strtoul(word, &end, base);
    *byte = (uint8_t)value;
    return end != word && *end == '\0' && value <= 255;
}

/* The ID in decimal and then the body in hex; more than 254 bytes of it are refused, so that 255 are enough to be told so. */
static int print_packet(const struct protocol *protocol, int n_words, char **words)
{
    uint8_t id, body[MOST_BODY + 1], packet[DXL_V1_MAX_PACKET];
    size_t n = 0;
    int good = read_byte(words[0], 10, &id);
    for (int i = 1; good && i < n_words && n < sizeof body; i++)
        good = read_byte(words[i], 16, &body[n++]);
    if (!good) {
        fprintf(stderr, "old_boards: the ID is 0 to 255, and a byte of the body 00 to FF\n");
        return 2;
    }
    int64_t count = protocol->encode(id, body[0], body + 1, n - 1, packet, sizeof packet, 0);
    if (count == -DXL_BAD_ID)
        fprintf(stderr, "old_boards: refused, %d: the protocol has no ID %d\n", DXL_BAD_ID, id);
    else if (count == -DXL_TOO_LONG)
        fprintf(stderr, "old_boards: refused, %d: a body has at most %d bytes\n", DXL_TOO_LONG, MOST_BODY);
    else
        print_bytes(packet, (size_t)count);
    return count < 0;
}

int main(int n_words, char **words)
{
    const struct protocol *protocol = &p1;
    int at = 1, status;
    if (n_words > at && strcmp(words[at], "--mercury") == 0) {
        protocol = &mercury;
        at++;
    }
    if (n_words > at + 2 && strcmp(words[at], "--packet") == 0) {
        status = print_packet(protocol, n_words - at - 1, words + at + 1);
    } else if (n_words == at + 1 && (words[at][0] != '-' || words[at][1] == '\0')) {
        status = print_events(protocol, words[at]);
    } else {
        fprintf(stderr, "usage: old_boards [--mercury] FILE, or - for standard input\n"
                        "       old_boards [--mercury] --packet ID BYTE...   ID in decimal, the body's bytes in hex\n");
        return 2;
    }
    if (fflush(stdout) != 0 || ferror(stdout))
        return fail("standard output");
    return status;
}
