/*
 * A question to a log reads header, directory, index and one segment: the pages of all other segments are made unreadable, and then
 * the log is asked. Prints what was asked; a page that is read where it must not be ends the program.
 */
#include <stdio.h>
#include <stdlib.h>
#include <string.h>
#include <sys/mman.h>
#include <unistd.h>

#include "mednukals.h"

enum { SEGMENTS = 5, PAGES_EACH = 6 };

static const uint8_t PING[] = {0xFF, 0xFF, 0xFD, 0x00, 0x01, 0x03, 0x00, 0x01, 0x19, 0x4E};

static void require(int holds, const char *what)
{
    if (holds)
        return;
    fprintf(stderr, "log_pages: %s\n", what);
    exit(1);
}

/* Each segment has one packet, for an ID of its own, at this offset. */
static size_t packet_offset(size_t segment)
{
    return 100 * segment + 7;
}

static size_t write_log(uint8_t *log, size_t room, size_t page)
{
    static uint32_t lengths[SEGMENTS];
    size_t each = PAGES_EACH * page;
    uint8_t *bytes = calloc(SEGMENTS, each);
    require(bytes != NULL, "no memory");
    for (size_t i = 0; i < SEGMENTS; i++) {
        uint8_t ping = DXL_INST_PING;
        lengths[i] = (uint32_t)each;
        require(dxl_encode((uint8_t)(i + 1), ping, PING, 0, bytes, SEGMENTS * each, i * each + packet_offset(i)) == 10,
                "a packet was not written");
    }
    int64_t count = dxl_log_write(bytes, SEGMENTS * each, lengths, SEGMENTS, log, room);
    free(bytes);
    require(count == (int64_t)(DXL_LOG_FRONT + DXL_LOG_ENTRY * SEGMENTS + SEGMENTS * each), "the log was not written");
    return (size_t)count;
}

/* Every whole page that has bytes of other segments only. */
static void protect_others(uint8_t *log, size_t page, size_t segment, int protection)
{
    size_t front = DXL_LOG_FRONT + DXL_LOG_ENTRY * SEGMENTS;
    size_t each = PAGES_EACH * page;
    size_t start = front + segment * each, end = start + each;
    for (size_t at = 0; at < front + SEGMENTS * each; at += page) {
        if (at >= front && (at + page <= start || at >= end))
            require(mprotect(log + at, page, protection) == 0, "mprotect");
    }
}

int main(void)
{
    size_t page = (size_t)sysconf(_SC_PAGESIZE);
    size_t room = (SEGMENTS * PAGES_EACH + 1) * page + DXL_LOG_FRONT;
    uint8_t *log = mmap(NULL, room, PROT_READ | PROT_WRITE, MAP_PRIVATE | MAP_ANONYMOUS, -1, 0);
    require(log != MAP_FAILED, "mmap");
    size_t count = write_log(log, room, page);
    require(dxl_log_check(log, count) == 0, "the log is not sound");
    for (size_t i = 0; i < SEGMENTS; i++) {
        protect_others(log, page, i, PROT_NONE);
        struct dxl_found found = dxl_log_last(log, count, (uint8_t)(i + 1));
        protect_others(log, page, i, PROT_READ);
        require(found.found == 1 && found.segment == i && found.offset == packet_offset(i), "another packet was found");
    }
    /* none of them where the index names none */
    protect_others(log, page, SEGMENTS, PROT_NONE);
    require(dxl_log_last(log, count, 200).found == 0, "a packet was found that is not there");
    printf("%d questions, each with the pages of one segment\n", SEGMENTS);
    return 0;
}
