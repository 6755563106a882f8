/*
 * Prints the events of a captured segment, each with the offset where it begins:
 *
 *     OFFSET packet ID INSTRUCTION COUNT    COUNT is that of the unstuffed parameters
 *     OFFSET crc ID                         a bad checksum
 *     end BYTES                             the last line
 *
 * Usage: segment FILE, or segment - for standard input. The whole file is one segment, of any length.
 */
#include <errno.h>
#include <inttypes.h>
#include <stdio.h>
#include <stdlib.h>
#include <string.h>

#include "mednukals.h"

enum { BEFORE_BODY = 7, CHECKSUM = 2 };

/* All bytes of a file, in memory that is freed with the program; null where they cannot be read. */
static uint8_t *read_all(FILE *file, size_t *n)
{
    size_t room = 65536;
    uint8_t *bytes = malloc(room);
    *n = 0;
    while (bytes != NULL) {
        *n += fread(bytes + *n, 1, room - *n, file);
        if (*n < room)
            return ferror(file) ? NULL : bytes;
        room *= 2;
        bytes = realloc(bytes, room);
    }
    return NULL;
}

/* A packet's body is well stuffed, has an instruction, and fits. */
static void print_packet(const uint8_t *segment, struct dxl_event event)
{
    uint8_t body[DXL_MAX_BODY];
    const uint8_t *packet = segment + event.offset;
    int64_t n = dxl_unstuff(packet + BEFORE_BODY, event.count - BEFORE_BODY - CHECKSUM, body, sizeof body);
    printf("%zu packet %d %d %" PRId64 "\n", event.offset, event.id, body[0], n - 1);
}

/* Each call begins where the answer before says that reading goes on. */
static void print_events(const uint8_t *segment, size_t n)
{
    struct dxl_event event = dxl_next_event(segment, n, 0);
    while (event.kind != DXL_NO_EVENT) {
        if (event.kind == DXL_PACKET)
            print_packet(segment, event);
        else
            printf("%zu crc %d\n", event.offset, event.id);
        event = dxl_next_event(segment, n, event.next);
    }
    printf("end %zu\n", n);
}

static int fail(const char *name)
{
    fprintf(stderr, "segment: %s: %s\n", name, strerror(errno));
    return 1;
}

int main(int n_words, char **words)
{
    if (n_words != 2) {
        fprintf(stderr, "usage: segment FILE, or segment - for standard input\n");
        return 2;
    }
    FILE *file = strcmp(words[1], "-") == 0 ? stdin : fopen(words[1], "rb");
    if (file == NULL)
        return fail(words[1]);
    size_t n;
    uint8_t *segment = read_all(file, &n);
    if (segment == NULL)
        return fail(words[1]);
    print_events(segment, n);
    if (fflush(stdout) != 0 || ferror(stdout))
        return fail("standard output");
    return 0;
}
