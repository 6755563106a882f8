/*
 * Calls every export on fixed inputs, for tests/counts_test.py, which has callgrind count the instructions within `counted`. Prints
 * the name of each count in the order in which they are taken: the export and its input. Ends with status 1 where an answer is
 * not the one that the input is for, so that what is counted is what the name says.
 */
#include <inttypes.h>
#include <stdio.h>
#include <stdlib.h>
#include <string.h>

#include "baseline.h"
#include "board.h"
#include "lines.h"
#include "mednukals.h"
#include "test_exports.h"
#include "worst.h"

/* What is lent to the calls: in one struct, so that it lies in the same order for every compiler. */
static struct {
    uint8_t line[4096];
    struct dxl_reader reader;
    uint8_t packet[DXL_MAX_PACKET];
    uint8_t params[1100];
    uint8_t body[DXL_MAX_BODY];
    uint8_t table[DXL_TABLE_BYTES];
    uint8_t reply[64];
    int32_t goals[253];
    uint8_t plan[1300];
} lent;

/* The numbers of the next call. */
static struct {
    size_t n;     /* bytes of its input */
    size_t chunk; /* a line is read in chunks of so many */
    size_t room;  /* bytes of its output buffer */
    uint8_t kind, id;
    uint16_t crc;
    struct dxl_registered registered;
    struct dxl_reply waiting; /* what the first call has left for the second */
} given;

/* The name of a function; where the baseline is counted, its own. */
#define NAME(function) TEXT(function)
#define TEXT(name) #name

typedef int64_t call(void);

/* Callgrind counts in here, and writes down what it has counted when this returns. */
static int64_t counted(call *f)
{
    return f();
}

static void count(const char *export, const char *input, call *f, int64_t wanted)
{
    int64_t answer = counted(f);
    if (answer != wanted) {
        fprintf(stderr, "counts: %s %s: %" PRId64 " and not %" PRId64 "\n", export, input, answer, wanted);
        exit(1);
    }
    printf("%s %s\n", export, input);
}

/* The name of an input with its byte count. */
static const char *named(const char *format, size_t n)
{
    static char name[64];
    snprintf(name, sizeof name, format, n);
    return name;
}

static int64_t crc16(void)
{
    return dxl_crc16(0, lent.line, given.n);
}

static int64_t crc16_small(void)
{
    return dxl_test_crc16_small(0, lent.line, given.n);
}

static int64_t crc16_fold(void)
{
    return dxl_test_crc16_fold(0, lent.line, given.n);
}

/* Byte 4 of so many has changed. */
static int64_t crc16_flipped(void)
{
    static const uint8_t flips[1] = {0x10};
    return dxl_crc16_flipped(given.crc, flips, sizeof flips, given.n - 5);
}

static void count_checksums(void)
{
    static const size_t sizes[] = {0, 1, 14, 1024};
    draw(lent.line, sizeof lent.line);
    for (size_t i = 0; i < sizeof sizes / sizeof sizes[0]; i++) {
        given.n = sizes[i];
        count(NAME(dxl_crc16), named("%zu bytes", given.n), crc16, baseline_crc16(0, lent.line, given.n));
        count(NAME(dxl_test_crc16_small), named("%zu bytes", given.n), crc16_small, baseline_crc16(0, lent.line, given.n));
        count(NAME(dxl_test_crc16_fold), named("%zu bytes", given.n), crc16_fold, baseline_crc16(0, lent.line, given.n));
    }
    for (size_t i = 2; i < sizeof sizes / sizeof sizes[0]; i++) {
        given.n = sizes[i];
        given.crc = baseline_crc16(0, lent.line, given.n);
        lent.line[4] ^= 0x10;
        count(NAME(dxl_crc16_flipped), named("a byte of %zu", given.n), crc16_flipped, baseline_crc16(0, lent.line, given.n));
    }
}

static int64_t encode(void)
{
    return dxl_encode(given.id, DXL_INST_STATUS, lent.params, given.n, lent.packet, given.room, 0);
}

static int64_t p1_encode(void)
{
    return dxl_p1_encode(given.id, 0, lent.params, given.n, lent.packet, given.room, 0);
}

static int64_t mercury_encode(void)
{
    return dxl_mercury_encode(given.id, 0, lent.params, given.n, lent.packet, given.room, 0);
}

static int64_t unstuff(void)
{
    return dxl_unstuff(lent.packet + 7, given.n, lent.body, given.room);
}

static void count_packets(void)
{
    static const uint8_t ping_status[] = {0x00, 0x06, 0x04, 0x26};
    given.id = 1;
    given.room = sizeof lent.packet;
    given.n = sizeof ping_status;
    memcpy(lent.params, ping_status, sizeof ping_status);
    count(NAME(dxl_encode), "14 bytes", encode, 14);
    given.n = 5;
    given.room = sizeof lent.body;
    count(NAME(dxl_unstuff), "5 bytes", unstuff, 5);

    given.room = sizeof lent.packet;
    given.n = LONGEST_PARAMS;
    draw_longest(lent.params);
    count(NAME(dxl_encode), "1031 bytes", encode, 1031);
    given.n = DXL_MAX_BODY;
    given.room = sizeof lent.body;
    count(NAME(dxl_unstuff), "1022 bytes", unstuff, 1012);
    memcpy(lent.packet + 7 + given.n - 3, "\xFF\xFF\xFD", 3);
    count(NAME(dxl_unstuff), "refused at its end", unstuff, -DXL_BAD_STUFFING);

    given.n = LONGEST_PARAMS;
    given.room = 1030;
    count(NAME(dxl_encode), "no room", encode, -DXL_NO_ROOM);
    given.n = sizeof lent.params;
    count(NAME(dxl_encode), "too long", encode, -DXL_TOO_LONG);
    given.id = 255;
    count(NAME(dxl_encode), "bad ID", encode, -DXL_BAD_ID);
}

static void count_v1_packets(void)
{
    given.id = 1;
    given.room = DXL_V1_MAX_PACKET;
    draw(lent.params, sizeof lent.params);
    given.n = 4;
    count(NAME(dxl_p1_encode), "10 bytes", p1_encode, 10);
    count(NAME(dxl_mercury_encode), "10 bytes", mercury_encode, 10);
    given.n = 253;
    count(NAME(dxl_p1_encode), "259 bytes", p1_encode, DXL_V1_MAX_PACKET);
    given.room--;
    count(NAME(dxl_p1_encode), "no room", p1_encode, -DXL_NO_ROOM);
    given.n = 254;
    count(NAME(dxl_p1_encode), "too long", p1_encode, -DXL_TOO_LONG);
    given.id = 253;
    count(NAME(dxl_mercury_encode), "bad ID", mercury_encode, -DXL_BAD_ID);
}

/* Reads the line in chunks: how many events there are, or minus a refusal. */
static int64_t read_line(int by_record)
{
    int64_t events = 0;
    for (size_t at = 0; at < given.n; at += given.chunk) {
        const uint8_t *chunk = lent.line + at;
        size_t left = given.n - at < given.chunk ? given.n - at : given.chunk;
        for (;;) {
            struct dxl_step step = by_record
                                       ? dxl_reader_feed(&lent.reader, chunk, left, lent.packet)
                                       : dxl_feed(lent.reader.bytes, &lent.reader.count, chunk, left, lent.packet);
            if (step.kind == DXL_BAD_READER)
                return -DXL_BAD_READER;
            if (step.kind == DXL_NO_EVENT)
                break;
            chunk += step.taken;
            left -= step.taken;
            events++;
        }
    }
    return events;
}

static int64_t feed(void)
{
    return read_line(0);
}

static int64_t feed_record(void)
{
    return read_line(1);
}

static void count_line(const char *input, size_t n, size_t chunk, int64_t events)
{
    given.n = n;
    given.chunk = chunk;
    lent.reader.count = 0;
    count(NAME(dxl_feed), input, feed, events);
}

/* By both feeding calls. */
static void count_both(const char *input, size_t n, size_t chunk, int64_t events)
{
    count_line(input, n, chunk, events);
    lent.reader.count = 0;
    count(NAME(dxl_reader_feed), input, feed_record, events);
}

static void count_feeds(void)
{
    size_t n = (size_t)baseline_encode(1, DXL_INST_PING, lent.params, 0, lent.line, sizeof lent.line, 0);
    count_both("Ping", n, n, 1);
    count_both("Ping, chunks of 1", n, 1, 1);
    lent.line[n - 1] ^= 1;
    count_both("damaged Ping", n, n, 1);
    lent.reader.count = DXL_MAX_HELD + 1;
    count(NAME(dxl_feed), "refused", feed, -DXL_BAD_READER);
    count(NAME(dxl_reader_feed), "refused", feed_record, -DXL_BAD_READER);

    draw_longest(lent.params);
    n = (size_t)baseline_encode(1, DXL_INST_STATUS, lent.params, LONGEST_PARAMS, lent.line, sizeof lent.line, 0);
    count_both("longest packet", n, n, 1);
    worst_call(lent.line);
    count_both("worst call", WORST_CALL, WORST_CALL, 0);
}

/* Lines of 4,096 bytes or somewhat less, with so many events. */
static void count_lines(void)
{
    static const int64_t events[LINES] = {
        [PACKETS_OF_14] = 292, [MIXED_PACKETS] = 71, [WORST_NOISE] = 438, [RANDOM_HEADER_BYTES] = 3};
    static const size_t chunks[] = {1, 64, 4096};
    for (size_t i = 0; i < LINES; i++) {
        size_t n = lines[i].fill(lent.line, sizeof lent.line);
        for (size_t j = 0; j < sizeof chunks / sizeof chunks[0]; j++) {
            char input[64];
            snprintf(input, sizeof input, "%s, chunks of %zu", lines[i].name, chunks[j]);
            count_line(input, n, chunks[j], events[i]);
        }
    }
}

/* All events of a gap: how many there are, or minus a refusal. */
static int64_t end_segment(int by_record)
{
    for (int64_t events = 0;; events++) {
        struct dxl_step step = by_record ? dxl_reader_gap(&lent.reader, lent.packet)
                                         : dxl_gap(lent.reader.bytes, &lent.reader.count, lent.packet);
        if (step.kind == DXL_BAD_READER)
            return -DXL_BAD_READER;
        if (step.kind == DXL_NO_EVENT)
            return events;
    }
}

static int64_t gap(void)
{
    return end_segment(0);
}

static int64_t gap_record(void)
{
    return end_segment(1);
}

static uint8_t held_v1[DXL_V1_MAX_HELD], packet_v1[DXL_V1_MAX_PACKET];
static size_t count_v1;

typedef struct dxl_step feeder_v1(uint8_t held[258], size_t *count, const uint8_t *chunk, size_t n, uint8_t packet[259]);
typedef struct dxl_step ender_v1(uint8_t held[258], size_t *count, uint8_t packet[259]);

/* As read_line, in Protocol 1.0 or Mercury. */
static int64_t read_v1(feeder_v1 *feed)
{
    int64_t events = 0;
    for (size_t at = 0; at < given.n; at += given.chunk) {
        const uint8_t *chunk = lent.line + at;
        size_t left = given.n - at < given.chunk ? given.n - at : given.chunk;
        for (;;) {
            struct dxl_step step = feed(held_v1, &count_v1, chunk, left, packet_v1);
            if (step.kind == DXL_BAD_READER)
                return -DXL_BAD_READER;
            if (step.kind == DXL_NO_EVENT)
                break;
            chunk += step.taken;
            left -= step.taken;
            events++;
        }
    }
    return events;
}

static int64_t end_v1(ender_v1 *gap)
{
    for (int64_t events = 0;; events++) {
        struct dxl_step step = gap(held_v1, &count_v1, packet_v1);
        if (step.kind == DXL_BAD_READER)
            return -DXL_BAD_READER;
        if (step.kind == DXL_NO_EVENT)
            return events;
    }
}

static int64_t p1_feed(void)
{
    return read_v1(dxl_p1_feed);
}

static int64_t mercury_feed(void)
{
    return read_v1(dxl_mercury_feed);
}

static int64_t p1_gap(void)
{
    return end_v1(dxl_p1_gap);
}

static int64_t mercury_gap(void)
{
    return end_v1(dxl_mercury_gap);
}

static void count_feed_v1(const char *input, size_t n, size_t chunk, int64_t events)
{
    given.n = n;
    given.chunk = chunk;
    count_v1 = 0;
    count(NAME(dxl_p1_feed), input, p1_feed, events);
    count_v1 = 0;
    count(NAME(dxl_mercury_feed), input, mercury_feed, events);
}

/* So many bytes of the line are held. */
static void count_gap_v1(const char *input, size_t held, int64_t events)
{
    memcpy(held_v1, lent.line, sizeof held_v1);
    count_v1 = held;
    count(NAME(dxl_p1_gap), input, p1_gap, events);
    memcpy(held_v1, lent.line, sizeof held_v1);
    count_v1 = held;
    count(NAME(dxl_mercury_gap), input, mercury_gap, events);
}

static void count_old_boards(void)
{
    size_t n = packets_v1(lent.line, 2560);
    count_feed_v1("a packet of 10", 10, 10, 1);
    count_feed_v1("a packet of 10, chunks of 1", 10, 1, 1);
    count_feed_v1("packets of 10, chunks of 64", n, 64, 256);
    count_feed_v1("packets of 10, one chunk", n, n, 256);
    memmove(lent.line + 4, lent.line, 250);
    memcpy(lent.line, "\xFF\xFF\x01\xFF", 4); /* a front that waits */
    count_gap_v1("25 packets held", 254, 25);
    n = worst_noise_v1(lent.line, 2560);
    count_feed_v1("worst noise, chunks of 64", n, 64, (int64_t)(n - 259) / 3 + 1);
    count_gap_v1("worst noise held", DXL_V1_MAX_HELD, 0);
    count_gap_v1("refused", DXL_V1_MAX_HELD + 1, -DXL_BAD_READER);
}

/* So many bytes of the line are held. */
static void count_gap(const char *input, size_t held, int64_t events)
{
    memcpy(lent.reader.bytes, lent.line, DXL_MAX_HELD);
    lent.reader.count = held;
    count(NAME(dxl_gap), input, gap, events);
    memcpy(lent.reader.bytes, lent.line, DXL_MAX_HELD);
    lent.reader.count = held;
    count(NAME(dxl_reader_gap), input, gap_record, events);
}

/* A header that promises the longest packet, and what may be held behind it; then the worst noise. */
static void count_gaps(void)
{
    lines[WORST_NOISE].fill(lent.line, 7);
    lines[PACKETS_OF_14].fill(lent.line + 7, DXL_MAX_HELD - 7);
    count_gap("nothing held", 0, 0);
    count_gap("a header held", 7, 0);
    count_gap("73 packets held", 7 + 73 * 14, 73);
    worst_call(lent.line + 7);
    count_gap("worst call held", 7 + WORST_CALL, 0);
    lines[WORST_NOISE].fill(lent.line, sizeof lent.line);
    count_gap("worst noise held", DXL_MAX_HELD, 0);
    count_gap("refused", DXL_MAX_HELD + 1, -DXL_BAD_READER);
}

typedef struct dxl_event finder(const uint8_t *segment, size_t n, size_t from);

/* All events of the line as one segment: how many there are. */
static int64_t events_of(finder *next)
{
    int64_t events = 0;
    for (struct dxl_event event = next(lent.line, given.n, 0); event.kind != DXL_NO_EVENT; event = next(lent.line, given.n, event.next))
        events++;
    return events;
}

static int64_t next_events(void)
{
    return events_of(dxl_next_event);
}

static void count_segments(void)
{
    for (size_t i = 0; i < LINES; i++) {
        given.n = lines[i].fill(lent.line, sizeof lent.line);
        count(NAME(dxl_next_event), lines[i].name, next_events, events_of(baseline_next_event));
    }
    given.n = 0;
    count(NAME(dxl_next_event), "no bytes", next_events, 0);
}

/* The line as four segments of equal length, and their log. */
enum { SEGMENTS = 4 };
static uint32_t lengths[SEGMENTS];
static uint8_t log_bytes[DXL_LOG_FRONT + DXL_LOG_ENTRY * SEGMENTS + sizeof lent.line];

static int64_t log_write(void)
{
    return dxl_log_write(lent.line, given.n, lengths, SEGMENTS, log_bytes, given.room);
}

static int64_t log_check(void)
{
    return dxl_log_check(log_bytes, given.room);
}

static int64_t log_last(void)
{
    struct dxl_found found = dxl_log_last(log_bytes, given.room, given.id);
    return found.found < 0 ? found.found : found.found + (int64_t)(found.segment + found.offset);
}

/* The log, of which the last byte is missing or not, as `given.room` says. */
static int64_t log_salvage(void)
{
    static uint8_t out[sizeof log_bytes];
    static uint32_t report[2 * SEGMENTS];
    struct dxl_salvaged salvaged = dxl_log_salvage(log_bytes, given.room, out, sizeof out, report, 2 * SEGMENTS);
    return salvaged.count < 0 ? salvaged.count : salvaged.count + (int64_t)(salvaged.dropped + salvaged.leftover);
}

static void count_salvage(const char *name)
{
    char input[64];
    count(NAME(dxl_log_salvage), name, log_salvage, (int64_t)given.room);
    snprintf(input, sizeof input, "%s, cut", name);
    given.room--; /* the last segment is dropped: its entry, and its bytes but for the one that is missing */
    count(NAME(dxl_log_salvage), input, log_salvage, (int64_t)given.room + 1 - DXL_LOG_ENTRY);
    given.room++;
}

static void count_logs(void)
{
    static const size_t kinds[] = {PACKETS_OF_14, RANDOM_BYTES};
    for (size_t i = 0; i < sizeof kinds / sizeof *kinds; i++) {
        given.n = lines[kinds[i]].fill(lent.line, sizeof lent.line) / SEGMENTS * SEGMENTS;
        given.room = DXL_LOG_FRONT + DXL_LOG_ENTRY * SEGMENTS + given.n;
        for (size_t k = 0; k < SEGMENTS; k++)
            lengths[k] = (uint32_t)(given.n / SEGMENTS);
        count(NAME(dxl_log_write), lines[kinds[i]].name, log_write, (int64_t)given.room);
        count(NAME(dxl_log_check), lines[kinds[i]].name, log_check, 0);
        for (given.id = 1; given.id < 3; given.id++) {
            struct dxl_found found = baseline_log_last(log_bytes, given.room, given.id);
            char input[64];
            snprintf(input, sizeof input, "%s, ID %d", lines[kinds[i]].name, given.id);
            count(NAME(dxl_log_last), input, log_last, found.found + (int64_t)(found.segment + found.offset));
        }
        count_salvage(lines[kinds[i]].name);
    }
    given.room--;
    count(NAME(dxl_log_write), "refused", log_write, -DXL_NO_ROOM);
    count(NAME(dxl_log_check), "refused", log_check, -DXL_BAD_LOG);
    count(NAME(dxl_log_last), "refused", log_last, -DXL_BAD_LOG);
    given.room = DXL_LOG_FRONT - 1;
    count(NAME(dxl_log_salvage), "refused", log_salvage, -DXL_BAD_LOG_SIZE);
}

static int64_t fresh(void)
{
    return dxl_fresh(lent.table, given.n);
}

static int64_t measure(void)
{
    return dxl_measure(lent.table, given.n, -1, 1);
}

static int64_t version(void)
{
    return dxl_version();
}

static void count_table(void)
{
    count(NAME(dxl_version), "always", version, DXL_VERSION_NUMBER);
    given.n = sizeof lent.table;
    count(NAME(dxl_fresh), "136 bytes", fresh, 0);
    count(NAME(dxl_measure), "136 bytes", measure, 0);
    given.n = 1;
    count(NAME(dxl_fresh), "refused", fresh, -DXL_NOT_A_TABLE);
    count(NAME(dxl_measure), "refused", measure, -DXL_NOT_A_TABLE);
}

/* What the device answers, the status's error and the goal's lowest byte, in one number. */
static int64_t joined(int64_t bytes, uint8_t error, uint8_t goal)
{
    return bytes * 65536 + error * 256 + goal;
}

static int64_t told(const struct dxl_answer *answer)
{
    return joined(answer->count, lent.reply[8], lent.table[DXL_REG_GOAL_POSITION]);
}

static int64_t device(void)
{
    struct dxl_answer answer = dxl_device(lent.table, sizeof lent.table, given.registered, given.kind, given.id, lent.params,
                                          given.n, lent.reply, given.room);
    return told(&answer);
}

static int64_t exchange(void)
{
    struct dxl_answer answer = dxl_exchange(lent.table, sizeof lent.table, given.registered, lent.packet, given.n, lent.body,
                                            sizeof lent.body, lent.reply, given.room);
    return told(&answer);
}

/* The first of two calls, and the second. */
static int64_t carry_out(void)
{
    struct dxl_carried carried =
        dxl_carry_out(lent.table, sizeof lent.table, given.registered, given.kind, given.id, lent.params, given.n);
    given.waiting = carried.reply;
    return joined(carried.refusal, carried.reply.error, lent.table[DXL_REG_GOAL_POSITION]);
}

static int64_t carry_out_packet(void)
{
    struct dxl_carried carried = dxl_carry_out_packet(lent.table, sizeof lent.table, given.registered, lent.packet, given.n,
                                                      lent.body, sizeof lent.body);
    given.waiting = carried.reply;
    return joined(carried.refusal, carried.reply.error, lent.table[DXL_REG_GOAL_POSITION]);
}

static int64_t status(void)
{
    return dxl_status(given.waiting, lent.reply, given.room);
}

/* What is heard: an instruction with its parameters, and what comes of it on a fresh table. */
struct heard {
    const char *input;
    uint8_t id, registered; /* registered: whether the goal 5 waits for Action */
    const uint8_t *body;
    size_t n;
    int64_t bytes; /* of the status, or minus a refusal */
    uint8_t error, goal;
};

#define BYTES(text) (const uint8_t *)text, sizeof text - 1

static const struct heard heard[] = {
    {"Ping", 1, 0, BYTES("\x01"), 14, 0, 0},
    {"Ping to all", 254, 0, BYTES("\x01"), 14, 0, 0},
    {"Read", 1, 0, BYTES("\x02\x84\x00\x04\x00"), 15, 0, 0},
    {"Read refused", 1, 0, BYTES("\x02\x84\x00\x05\x00"), 11, DXL_ERROR_ACCESS, 0},
    {"Write", 1, 0, BYTES("\x03\x74\x00\x05\x00\x00\x00"), 11, 0, 5},
    {"Write of both limits", 1, 0, BYTES("\x03\x30\x00\xFF\x0E\x00\x00\x00\x00\x00\x00"), 11, 0, 0},
    {"Write refused", 1, 0, BYTES("\x03\x74\x00\x05\x00\x00\x01"), 11, DXL_ERROR_DATA_RANGE, 0},
    {"Reg Write", 1, 0, BYTES("\x04\x74\x00\x05\x00\x00\x00"), 11, 0, 0},
    {"Action", 1, 1, BYTES("\x05"), 11, 0, 5},
    {"Action refused", 1, 0, BYTES("\x05"), 11, DXL_ERROR_INSTRUCTION, 0},
    {"Factory Reset", 1, 0, BYTES("\x06\x02"), 11, 0, 0},
    {"Factory Reset refused", 1, 0, BYTES("\x06\x05"), 11, DXL_ERROR_DATA_RANGE, 0},
    {"Reboot", 1, 1, BYTES("\x08"), 11, 0, 0},
    {"Sync Read of 3", 254, 0, BYTES("\x82\x84\x00\x04\x00\x02\x03\x01"), 15, 0, 0},
    {"Sync Write of 3", 254, 0, BYTES("\x83\x74\x00\x04\x00\x02\x07\x00\x00\x00\x03\x08\x00\x00\x00\x01\x05\x00\x00\x00"), 0, 0, 5},
    {"Bulk Read of 3", 254, 0, BYTES("\x92\x02\x84\x00\x04\x00\x03\x84\x00\x04\x00\x01\x84\x00\x04\x00"), 15, 0, 0},
    {"Bulk Write of 3", 254, 0,
     BYTES("\x93\x02\x74\x00\x04\x00\x07\x00\x00\x00\x03\x74\x00\x04\x00\x08\x00\x00\x00\x01\x74\x00\x04\x00\x05\x00\x00\x00"), 0, 0, 5},
    {"undefined instruction", 1, 0, BYTES("\x99"), 11, DXL_ERROR_INSTRUCTION, 0},
    {"status", 1, 0, BYTES("\x55\x00"), 0, 0, 0},
    {"Ping to another", 2, 0, BYTES("\x01"), 0, 0, 0},
};

/* The device and its buffers as each call finds them. */
static void begin(const struct heard *what)
{
    static const struct dxl_registered none, goal = {DXL_REG_GOAL_POSITION, 4, {5}, 0, 4095};
    dxl_fresh(lent.table, sizeof lent.table);
    lent.table[DXL_REG_REGISTERED_INSTRUCTION] = what->registered;
    memset(lent.reply, 0, sizeof lent.reply);
    memcpy(lent.params, what->body, what->n);
    given.n = what->n;
    given.kind = DXL_PACKET;
    given.id = what->id;
    given.registered = what->registered ? goal : none;
    given.room = DXL_MIN_REPLY;
}

/* The instruction by itself, and as a packet. */
static void count_heard(const struct heard *what)
{
    int64_t wanted = joined(what->bytes, what->error, what->goal);
    begin(what);
    count(NAME(dxl_device), what->input, device, wanted);
    begin(what);
    given.n = (size_t)baseline_encode(what->id, what->body[0], what->body + 1, what->n - 1, lent.packet, sizeof lent.packet, 0);
    count(NAME(dxl_exchange), what->input, exchange, wanted);
}

/* The same in two calls. */
static void count_in_two(const struct heard *what)
{
    int64_t wanted = joined(0, what->error, what->goal);
    begin(what);
    count(NAME(dxl_carry_out), what->input, carry_out, wanted);
    count(NAME(dxl_status), what->input, status, what->bytes);
    begin(what);
    given.n = (size_t)baseline_encode(what->id, what->body[0], what->body + 1, what->n - 1, lent.packet, sizeof lent.packet, 0);
    count(NAME(dxl_carry_out_packet), what->input, carry_out_packet, wanted);
}

/* So many devices, ours the last, each with a goal to write, or a position to read. */
static void fill_bulk(uint8_t *body, uint8_t instruction, size_t devices)
{
    size_t n = 1, entry = instruction == DXL_INST_BULK_WRITE ? 9 : 5;
    body[0] = instruction;
    for (size_t i = 0; i < devices; i++, n += entry) {
        memset(body + n, 0, entry);
        body[n] = (uint8_t)(devices - i);
        body[n + 1] = instruction == DXL_INST_BULK_WRITE ? DXL_REG_GOAL_POSITION : DXL_REG_PRESENT_POSITION;
        body[n + 3] = 4;
        if (instruction == DXL_INST_BULK_WRITE)
            body[n + 5] = i + 1 < devices ? 7 : 5;
    }
}

/* The longest lists, with our ID last: as many goals as a packet holds, and all IDs; then those of the benchmark. */
static void count_lists(void)
{
    enum { GOALS = 203, IDS = 253, BULK_READ = 200, BULK_WRITE = 110 };
    static uint8_t goals[5 + GOALS * 5] = {DXL_INST_SYNC_WRITE, DXL_REG_GOAL_POSITION, 0, 4, 0};
    static uint8_t ids[5 + IDS] = {DXL_INST_SYNC_READ, DXL_REG_PRESENT_POSITION, 0, 4, 0};
    static uint8_t read[1 + BULK_READ * 5], write[1 + BULK_WRITE * 9];
    static const struct heard lists[] = {
        {"Sync Write of 203", 254, 0, goals, sizeof goals, 0, 0, 5},
        {"Sync Read of 253", 254, 0, ids, sizeof ids, 15, 0, 0},
        {"Bulk Read of 200", 254, 0, read, sizeof read, 15, 0, 0},
        {"Bulk Write of 110", 254, 0, write, sizeof write, 0, 0, 5},
    };
    for (size_t i = 0; i < GOALS; i++) {
        goals[5 + i * 5] = (uint8_t)(GOALS - i);
        goals[5 + i * 5 + 1] = i + 1 < GOALS ? 7 : 5;
    }
    for (size_t i = 0; i < IDS; i++)
        ids[5 + i] = (uint8_t)((IDS - i) % IDS);
    fill_bulk(read, DXL_INST_BULK_READ, BULK_READ);
    fill_bulk(write, DXL_INST_BULK_WRITE, BULK_WRITE);
    for (size_t i = 0; i < sizeof lists / sizeof lists[0]; i++)
        count_heard(&lists[i]);
}

/* What goes wrong before an instruction is looked at. */
static void count_faults(void)
{
    const struct heard *ping = &heard[0];
    begin(ping);
    given.kind = DXL_BAD_CHECKSUM;
    count(NAME(dxl_device), "bad checksum", device, joined(11, DXL_ERROR_CHECKSUM, 0));
    begin(ping);
    given.room = DXL_MIN_REPLY - 1;
    count(NAME(dxl_device), "refused", device, joined(-DXL_SHORT_REPLY, 0, 0));

    given.n = (size_t)baseline_encode(1, DXL_INST_PING, lent.params, 0, lent.packet, sizeof lent.packet, 0);
    count(NAME(dxl_exchange), "refused", exchange, joined(-DXL_SHORT_REPLY, 0, 0));
    begin(ping);
    lent.packet[given.n - 1] ^= 1;
    count(NAME(dxl_exchange), "bad checksum", exchange, 0);

    begin(ping);
    given.registered.count = 9;
    count(NAME(dxl_carry_out), "refused", carry_out, joined(-DXL_BAD_REGISTERED, 0, 0));
    count(NAME(dxl_carry_out_packet), "refused", carry_out_packet, joined(-DXL_BAD_REGISTERED, 0, 0));
    given.room = 0;
    count(NAME(dxl_status), "refused", status, -DXL_SHORT_REPLY);
}

/* A board, by the one call, and the same by the single calls: tests/counts_test.py compares the two. */
static const struct one_call one = {dxl_board_feed_parts, dxl_board_gap_parts};
static const struct single_calls single = {dxl_feed, dxl_gap, dxl_unstuff, dxl_carry_out};

static int64_t came_of(struct outcome outcome)
{
    return joined(outcome.events, outcome.error, board_memory.board.table[DXL_REG_GOAL_POSITION]);
}

static int64_t board_feed(void)
{
    return came_of(feed_by_one(&one, lent.line, given.n, given.chunk));
}

static int64_t single_feed(void)
{
    return came_of(feed_by_single(&single, lent.line, given.n, given.chunk));
}

static int64_t board_gap(void)
{
    return came_of(gap_by_one(&one));
}

static int64_t single_gap(void)
{
    return came_of(gap_by_single(&single));
}

/* A fresh board that holds so many bytes of the line. */
static void begin_board(size_t held)
{
    dxl_board_start(&board_memory.board);
    memcpy(board_memory.board.held, lent.line, held);
    board_memory.board.count = held;
}

static void count_board_line(const struct board_line *kind)
{
    char input[48], same[64];
    int64_t wanted = joined(kind->events, kind->error, kind->goal);
    given.n = kind->fill(lent.line, sizeof lent.line);
    given.chunk = kind->chunk > 0 ? kind->chunk : given.n;
    if (kind->chunk > 0)
        snprintf(input, sizeof input, "%s, by %zu", kind->name, kind->chunk);
    else
        snprintf(input, sizeof input, "%s", kind->name);
    snprintf(same, sizeof same, "single calls, %s", input);
    begin_board(0);
    count(NAME(dxl_board_feed_parts), input, board_feed, wanted);
    begin_board(0);
    count(NAME(dxl_feed), same, single_feed, wanted);
}

static void count_board_gap(const char *input, size_t held, int64_t events)
{
    char same[64];
    snprintf(same, sizeof same, "single calls, %s", input);
    begin_board(held);
    count(NAME(dxl_board_gap_parts), input, board_gap, joined(events, 0, 0));
    begin_board(held);
    count(NAME(dxl_gap), same, single_gap, joined(events, 0, 0));
}

static size_t worst_line(uint8_t *line, size_t n)
{
    (void)n;
    worst_call(line);
    return WORST_CALL;
}

/* The gaps are those of the reader's own call. A refusal is no work, and is not compared. */
static void count_boards(void)
{
    static const struct board_line worst = {"worst call", worst_line, 0, 0, 0, 0};
    for (size_t i = 0; i < BOARD_LINES; i++)
        count_board_line(&board_lines[i]);
    count_board_line(&worst);
    lines[WORST_NOISE].fill(lent.line, 7);
    lines[PACKETS_OF_14].fill(lent.line + 7, DXL_MAX_HELD - 7);
    count_board_gap("nothing held", 0, 0);
    count_board_gap("a header held", 7, 0);
    count_board_gap("73 packets held", 7 + 73 * 14, 73);
    worst_call(lent.line + 7);
    count_board_gap("worst call held", 7 + WORST_CALL, 0);
    begin_board(0);
    board_memory.board.registered.count = 9;
    count(NAME(dxl_board_feed_parts), "refused", board_feed, joined(-DXL_BAD_REGISTERED, 0, 0));
    count(NAME(dxl_board_gap_parts), "refused", board_gap, joined(-DXL_BAD_REGISTERED, 0, 0));
}

static int64_t plan(void)
{
    return dxl_plan(lent.goals, given.n, lent.plan, given.room);
}

static int64_t plan_check(void)
{
    return dxl_plan_check(lent.goals, given.n, lent.plan, given.room);
}

/* Two goals, then one for every ID. */
static void count_plans(void)
{
    enum { IDS = 253 };
    for (size_t id = 0; id < IDS; id++)
        lent.goals[id] = id == 3 || id == 9 ? 255 : -1;
    given.n = IDS;
    given.room = sizeof lent.plan;
    count(NAME(dxl_plan), "2 goals", plan, 24);
    given.room = 24;
    count(NAME(dxl_plan_check), "2 goals", plan_check, 1);
    for (size_t id = 0; id < IDS; id++)
        lent.goals[id] = 4095 - (int32_t)id;
    given.room = sizeof lent.plan;
    count(NAME(dxl_plan), "253 goals", plan, 1293);
    given.room = 1293;
    count(NAME(dxl_plan_check), "253 goals", plan_check, 1);
    lent.goals[0]--;
    count(NAME(dxl_plan_check), "another goal", plan_check, 0);
    given.room = 1292;
    count(NAME(dxl_plan), "no room", plan, -DXL_NO_ROOM);
    lent.goals[IDS - 1] = 4096;
    count(NAME(dxl_plan), "bad goal", plan, -DXL_BAD_GOAL);
    count(NAME(dxl_plan_check), "bad goal", plan_check, -DXL_BAD_GOAL);
    given.n = 1;
    count(NAME(dxl_plan_check), "refused", plan_check, -DXL_NOT_GOALS);
}

static void count_worst(void)
{
    for (size_t i = 0; i < WORST_CASES; i++) {
        char input[48];
        snprintf(input, sizeof input, "worst: %s", worst_cases[i].input);
        worst_cases[i].begin();
        count(worst_cases[i].export, input, worst_cases[i].call, worst_cases[i].answer);
    }
}

int main(void)
{
    count_checksums();
    count_packets();
    count_v1_packets();
    count_feeds();
    count_lines();
    count_gaps();
    count_old_boards();
    count_segments();
    count_logs();
    count_table();
    for (size_t i = 0; i < sizeof heard / sizeof heard[0]; i++)
        count_heard(&heard[i]);
    for (size_t i = 0; i < sizeof heard / sizeof heard[0]; i++)
        count_in_two(&heard[i]);
    count_lists();
    count_faults();
    count_boards();
    count_plans();
    count_worst();
    return 0;
}
