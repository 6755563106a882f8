#include "log_file.h"

#include <inttypes.h>
#include <stdio.h>
#include <string.h>

#include "say.h"

uint32_t number_at(const uint8_t *bytes)
{
    return bytes[0] | (uint32_t)bytes[1] << 8 | (uint32_t)bytes[2] << 16 | (uint32_t)bytes[3] << 24;
}

const uint8_t *entry_at(const struct mapped *log, uint32_t segment)
{
    return log->bytes + LOG_HEADER + DXL_LOG_ENTRY * (size_t)segment;
}

const char *reason(int64_t refusal)
{
    switch (-refusal) {
    case DXL_BAD_LOG:
        return "31, not laid out as a log";
    case DXL_BAD_LOG_ID:
        return "32, an ID of 253 or 255 is never valid";
    case DXL_BAD_LOG_SIZE:
        return "33, a log has 1032 to 4294967295 bytes";
    case DXL_WRONG_INDEX:
        return "34, the index is not that of the segments";
    default:
        return "refused by a number that is not expected here";
    }
}

/* ---- the layout */

static int is_wrong(char why[LOG_FAULT], const char *what, uint64_t is, uint64_t should)
{
    snprintf(why, LOG_FAULT, "%s is %" PRIu64 " and should be %" PRIu64, what, is, should);
    return 0;
}

/* The four numbers of the header, and whether the file is long enough for them. */
static int header_fits(const struct mapped *log, char why[LOG_FAULT])
{
    if (log->count < DXL_LOG_FRONT || log->count > UINT32_MAX) {
        snprintf(why, LOG_FAULT, "it has %zu bytes, and a log has 1032 to 4294967295", log->count);
        return 0;
    }
    uint64_t n = number_at(log->bytes), front = DXL_LOG_FRONT + DXL_LOG_ENTRY * n;
    if (number_at(log->bytes + 4) != LOG_HEADER)
        return is_wrong(why, "the place of the directory, at 4,", number_at(log->bytes + 4), LOG_HEADER);
    if (number_at(log->bytes + 8) != LOG_INDEX)
        return is_wrong(why, "the count of index numbers, at 8,", number_at(log->bytes + 8), LOG_INDEX);
    if (number_at(log->bytes + 12) != LOG_HEADER + DXL_LOG_ENTRY * n)
        return is_wrong(why, "the place of the index, at 12,", number_at(log->bytes + 12), LOG_HEADER + DXL_LOG_ENTRY * n);
    if (log->count >= front)
        return 1;
    snprintf(why, LOG_FAULT, "%" PRIu64 " segments need %" PRIu64 " bytes before the first, and it has %zu", n, front, log->count);
    return 0;
}

/* Segment after segment, and then the end of the file. */
static int directory_fits(const struct mapped *log, char why[LOG_FAULT])
{
    char what[64];
    uint32_t n = number_at(log->bytes);
    uint64_t end = DXL_LOG_FRONT + DXL_LOG_ENTRY * (uint64_t)n;
    for (uint32_t i = 0; i < n; i++) {
        uint64_t start = number_at(entry_at(log, i)), length = number_at(entry_at(log, i) + 4);
        snprintf(what, sizeof what, "the start of segment %" PRIu32, i);
        if (start != end)
            return is_wrong(why, what, start, end);
        end += length;
        if (end > log->count) {
            snprintf(why, LOG_FAULT, "segment %" PRIu32 " ends at %" PRIu64 ", and the file at %zu", i, end, log->count);
            return 0;
        }
    }
    if (end != log->count)
        snprintf(why, LOG_FAULT, "%" PRIu64 " bytes stand behind the last segment", log->count - end);
    return end == log->count;
}

static unsigned id_of(unsigned place)
{
    return place == LOG_INDEX - 1 ? DXL_BROADCAST_ID : place;
}

static const uint8_t *index_of(const struct mapped *log)
{
    return entry_at(log, number_at(log->bytes));
}

static int index_fits(const struct mapped *log, char why[LOG_FAULT])
{
    uint32_t n = number_at(log->bytes);
    for (unsigned place = 0; place < LOG_INDEX; place++) {
        uint32_t number = number_at(index_of(log) + 4 * place);
        if (number > n) {
            snprintf(why, LOG_FAULT, "the index number for ID %u is %" PRIu32 ", and there are %" PRIu32 " segments", id_of(place),
                     number, n);
            return 0;
        }
    }
    return 1;
}

/* ---- the index */

/* 1 plus the number of the last segment with a packet for each ID; 0 where there is none. */
static void find_last(const struct mapped *log, uint32_t last[256])
{
    memset(last, 0, 256 * sizeof *last);
    for (uint32_t i = 0; i < number_at(log->bytes); i++) {
        const uint8_t *bytes = log->bytes + number_at(entry_at(log, i));
        size_t n = number_at(entry_at(log, i) + 4);
        for (struct dxl_event event = dxl_next_event(bytes, n, 0); event.kind != DXL_NO_EVENT;
             event = dxl_next_event(bytes, n, event.next))
            if (event.kind == DXL_PACKET)
                last[event.id] = i + 1;
    }
}

static void put_segment(char *text, size_t room, uint32_t number)
{
    if (number == 0)
        snprintf(text, room, "no segment");
    else
        snprintf(text, room, "segment %" PRIu32, number - 1);
}

static int index_is_true(const struct mapped *log, char why[LOG_FAULT])
{
    uint32_t last[256];
    char says[32], is[32];
    find_last(log, last);
    for (unsigned place = 0; place < LOG_INDEX; place++) {
        uint32_t number = number_at(index_of(log) + 4 * place);
        if (number != last[id_of(place)]) {
            put_segment(says, sizeof says, number);
            put_segment(is, sizeof is, last[id_of(place)]);
            snprintf(why, LOG_FAULT, "for ID %u it names %s, and the last one with a packet is %s", id_of(place), says, is);
            return 0;
        }
    }
    return 1;
}

void find_fault(const struct mapped *log, int64_t refusal, char why[LOG_FAULT])
{
    strcpy(why, "what is wrong was not found");
    if (refusal == -DXL_WRONG_INDEX)
        index_is_true(log, why);
    else if (header_fits(log, why) && directory_fits(log, why))
        index_fits(log, why);
}

int refuse_log(const char *name, const struct mapped *log, int64_t refusal)
{
    char why[LOG_FAULT], text[LOG_FAULT + 64];
    find_fault(log, refusal, why);
    snprintf(text, sizeof text, "%s: %s", reason(refusal), why);
    return say_failure(file_name(name), text);
}
