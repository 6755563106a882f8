/*
 * Measures the exports beside plain C in the same run. Rounds alternate between the two, so that a change of the machine's pace
 * meets both; the ratio is the median of the rounds' ratios, and above 1 the export is the faster one. Usage: bench KIT, the
 * version of the kit that has built the archives; BASELINE_BUILD says how the C code was built.
 */
#define _POSIX_C_SOURCE 199309L
#include <stdio.h>
#include <stdlib.h>
#include <string.h>
#include <time.h>

#include "baseline.h"
#include "board.h"
#include "lines.h"
#include "mednukals.h"
#include "test_exports.h"

enum { ROUNDS = 9, LARGEST = 1048576 };
static const double ROUND_SECONDS = 0.04;

static uint8_t input[LARGEST];

static double now(void)
{
    struct timespec t;
    clock_gettime(CLOCK_MONOTONIC, &t);
    return (double)t.tv_sec + (double)t.tv_nsec * 1e-9;
}

static int rising(const void *a, const void *b)
{
    double x = *(const double *)a, y = *(const double *)b;
    return (x > y) - (x < y);
}

static double median(const double *values)
{
    double sorted[ROUNDS];
    for (int i = 0; i < ROUNDS; i++)
        sorted[i] = values[i];
    qsort(sorted, ROUNDS, sizeof sorted[0], rising);
    return sorted[ROUNDS / 2];
}

/* One call on n bytes, or in chunks of n; what it answers goes into the next one, so that none can be left out or moved. */
typedef uint16_t work(uint16_t last, size_t n);

static uint16_t crc_ours(uint16_t last, size_t n)
{
    return dxl_crc16(last, input, n);
}

static uint16_t crc_baseline(uint16_t last, size_t n)
{
    return baseline_crc16(last, input, n);
}

static uint16_t small_ours(uint16_t last, size_t n)
{
    return dxl_test_crc16_small(last, input, n);
}

static uint16_t small_baseline(uint16_t last, size_t n)
{
    return baseline_crc16_small(last, input, n);
}

static uint16_t fold_ours(uint16_t last, size_t n)
{
    return dxl_test_crc16_fold(last, input, n);
}

/* The checksum of n bytes of which byte 4 was changed: from the one before, and by a whole pass in C. */
static uint16_t flip_ours(uint16_t last, size_t n)
{
    static size_t summed;
    static uint16_t before;
    uint8_t flips[1] = {(uint8_t)last};
    if (summed != n) {
        before = dxl_crc16(0, input, n);
        summed = n;
    }
    return dxl_crc16_flipped(before, flips, 1, n - 5);
}

static uint16_t flip_baseline(uint16_t last, size_t n)
{
    input[4] ^= (uint8_t)last;
    uint16_t crc = baseline_crc16(0, input, n);
    input[4] ^= (uint8_t)last;
    return crc;
}

/* The status that answers a Ping, 14 bytes, and the longest packet, with ten places to stuff in it. */
static uint8_t ping_status[] = {0x00, 0x06, 0x04, 0x26};
static uint8_t longest[LONGEST_PARAMS];
static uint8_t packet[DXL_MAX_PACKET];

typedef int64_t encoder(uint8_t id, uint8_t instruction, const uint8_t *params, size_t n_params, uint8_t *out, size_t n_out,
                        size_t at);

/* Encodes the packet of n bytes; the last answer is its first parameter, and its checksum is the next answer. */
static uint16_t encoded(encoder *encode, uint16_t last, size_t n)
{
    uint8_t *params = n == 14 ? ping_status : longest;
    size_t n_params = n == 14 ? sizeof ping_status : sizeof longest;
    params[0] = (uint8_t)last;
    if (encode(1, 0x55, params, n_params, packet, sizeof packet, 0) != (int64_t)n) {
        fprintf(stderr, "the packet has not %zu bytes\n", n);
        exit(1);
    }
    return (uint16_t)(packet[n - 2] | packet[n - 1] << 8);
}

static uint16_t encode_ours(uint16_t last, size_t n)
{
    return encoded(dxl_encode, last, n);
}

static uint16_t encode_baseline(uint16_t last, size_t n)
{
    return encoded(baseline_encode, last, n);
}

/* The packet of n bytes in Protocol 1.0, likewise. */
static uint16_t encoded_v1(encoder *encode, uint16_t last, size_t n)
{
    longest[0] = (uint8_t)last;
    if (encode(1, 0, longest, n - 6, packet, sizeof packet, 0) != (int64_t)n) {
        fprintf(stderr, "the packet of Protocol 1.0 has not %zu bytes\n", n);
        exit(1);
    }
    return packet[n - 1];
}

static uint16_t encode_v1_ours(uint16_t last, size_t n)
{
    return encoded_v1(dxl_p1_encode, last, n);
}

static uint16_t encode_v1_baseline(uint16_t last, size_t n)
{
    return encoded_v1(baseline_p1_encode, last, n);
}

/* What comes over the line, for the reader. */
static uint8_t line[65536];
static size_t n_line;

static struct dxl_reader reader;

/* end: the last byte of the packet, and some byte that is 0 beside any other answer */
static uint16_t mixed(uint16_t last, size_t taken, size_t count, uint8_t kind, uint8_t id, uint8_t end)
{
    return (uint16_t)(last * 31u + taken * 7u + count * 5u + kind * 3u + id + end);
}

static uint16_t mixed_step(uint16_t last, const struct dxl_step *step)
{
    uint8_t end = step->count > 0 ? packet[step->count - 1] : packet[0];
    return mixed(last, step->taken, step->count, step->kind, step->id, end);
}

static size_t least(size_t a, size_t b)
{
    return a < b ? a : b;
}

/* The reader's calls on a record by its parts, or on one in a struct. */
struct calls {
    struct dxl_step (*feed)(uint8_t held[1030], size_t *count, const uint8_t *chunk, size_t n, uint8_t packet[1031]);
    struct dxl_step (*gap)(uint8_t held[1030], size_t *count, uint8_t packet[1031]);
    struct dxl_step (*feed_record)(struct dxl_reader *reader, const uint8_t *chunk, size_t n, uint8_t packet[1031]);
    struct dxl_step (*gap_record)(struct dxl_reader *reader, uint8_t packet[1031]);
};

static struct dxl_step feed(const struct calls *calls, const uint8_t *chunk, size_t n)
{
    if (calls->feed_record != NULL)
        return calls->feed_record(&reader, chunk, n, packet);
    return calls->feed(reader.bytes, &reader.count, chunk, n, packet);
}

static struct dxl_step gap(const struct calls *calls)
{
    if (calls->gap_record != NULL)
        return calls->gap_record(&reader, packet);
    return calls->gap(reader.bytes, &reader.count, packet);
}

/* The whole line in chunks of n bytes, and a gap. */
static uint16_t read_line(const struct calls *calls, uint16_t last, size_t n)
{
    struct dxl_step step;
    reader.count = 0;
    for (size_t at = 0; at < n_line; at += n) {
        const uint8_t *chunk = line + at;
        size_t left = least(n, n_line - at);
        do {
            step = feed(calls, chunk, left);
            chunk += step.taken;
            left -= step.taken;
            last = mixed_step(last, &step);
        } while (step.kind != DXL_NO_EVENT);
    }
    do {
        step = gap(calls);
        last = mixed_step(last, &step);
    } while (step.kind != DXL_NO_EVENT);
    return last;
}

typedef struct fed_value value_feeder(const uint8_t held[1030], size_t count, const uint8_t *chunk, size_t n);

/* No gap call is beside it: it reads a line that ends with a packet. */
static uint16_t read_value(value_feeder *feed, uint16_t last, size_t n)
{
    struct fed_value fed = {.reader = {.count = 0}};
    for (size_t at = 0; at < n_line;) {
        fed = feed(fed.reader.bytes, fed.reader.count, line + at, least(n, n_line - at));
        uint8_t end = fed.packet[fed.step.count > 0 ? fed.step.count - 1 : 0];
        last = mixed(last, fed.step.taken, fed.step.count, fed.step.kind, fed.step.id, end);
        at += fed.step.taken;
    }
    return last;
}

static uint16_t value_ours(uint16_t last, size_t n)
{
    return read_value(dxl_test_feed_value, last, n);
}

static uint16_t value_baseline(uint16_t last, size_t n)
{
    return read_value(baseline_feed_value, last, n);
}

static uint16_t read_ours(uint16_t last, size_t n)
{
    static const struct calls ours = {dxl_feed, dxl_gap, NULL, NULL};
    return read_line(&ours, last, n);
}

static uint16_t read_baseline(uint16_t last, size_t n)
{
    static const struct calls baseline = {baseline_feed, baseline_gap, NULL, NULL};
    return read_line(&baseline, last, n);
}

static uint16_t record_ours(uint16_t last, size_t n)
{
    static const struct calls ours = {NULL, NULL, dxl_reader_feed, dxl_reader_gap};
    return read_line(&ours, last, n);
}

static uint16_t record_baseline(uint16_t last, size_t n)
{
    static const struct calls baseline = {NULL, NULL, baseline_reader_feed, baseline_reader_gap};
    return read_line(&baseline, last, n);
}

/* The longest packet of the old boards is shorter, and the same buffers serve. */
static uint16_t v1_ours(uint16_t last, size_t n)
{
    static const struct calls ours = {dxl_p1_feed, dxl_p1_gap, NULL, NULL};
    return read_line(&ours, last, n);
}

static uint16_t v1_baseline(uint16_t last, size_t n)
{
    static const struct calls baseline = {baseline_p1_feed, baseline_p1_gap, NULL, NULL};
    return read_line(&baseline, last, n);
}

typedef struct dxl_event finder(const uint8_t *segment, size_t n, size_t from);

/* The whole line as one segment. */
static uint16_t find_events(finder *next_event, uint16_t last)
{
    struct dxl_event event = next_event(line, n_line, 0);
    while (event.kind != DXL_NO_EVENT) {
        last = mixed(last, event.offset, event.count, event.kind, event.id, line[event.next - 1]);
        event = next_event(line, n_line, event.next);
    }
    return last;
}

static uint16_t plain_ours(uint16_t last, size_t n)
{
    (void)n;
    return find_events(dxl_next_event, last);
}

static uint16_t plain_baseline(uint16_t last, size_t n)
{
    (void)n;
    return find_events(baseline_next_event, last);
}

/* The line as segments of so many bytes, and their log. */
enum { MOST_SEGMENTS = 64 };
static uint32_t lengths[MOST_SEGMENTS];
static size_t n_segments, n_log;
static uint8_t log_bytes[DXL_LOG_FRONT + DXL_LOG_ENTRY * MOST_SEGMENTS + sizeof line];

typedef int64_t log_writer(const uint8_t *bytes, size_t n, const uint32_t *lengths, size_t n_segments, uint8_t *out, size_t n_out);
typedef int64_t log_checker(const uint8_t *log, size_t n);
typedef struct dxl_found log_finder(const uint8_t *log, size_t n, uint8_t id);

static uint16_t write_log(log_writer *write, uint16_t last)
{
    int64_t count = write(line, n_line, lengths, n_segments, log_bytes, sizeof log_bytes);
    return mixed(last, (size_t)count, log_bytes[16 + 8 * n_segments + 4], 0, 0, log_bytes[n_log - 1]);
}

static uint16_t log_write_ours(uint16_t last, size_t n)
{
    (void)n;
    return write_log(dxl_log_write, last);
}

static uint16_t log_write_baseline(uint16_t last, size_t n)
{
    (void)n;
    return write_log(baseline_log_write, last);
}

static uint16_t check_log(log_checker *check, uint16_t last)
{
    return mixed(last, (size_t)check(log_bytes, n_log), 0, 0, 0, 0);
}

static uint16_t log_check_ours(uint16_t last, size_t n)
{
    (void)n;
    return check_log(dxl_log_check, last);
}

static uint16_t log_check_baseline(uint16_t last, size_t n)
{
    (void)n;
    return check_log(baseline_log_check, last);
}

static uint16_t ask_log(log_finder *find, uint16_t last)
{
    struct dxl_found found = find(log_bytes, n_log, 1);
    return mixed(last, found.segment, found.offset, (uint8_t)found.found, 0, 0);
}

static uint16_t log_last_ours(uint16_t last, size_t n)
{
    (void)n;
    return ask_log(dxl_log_last, last);
}

static uint16_t log_last_baseline(uint16_t last, size_t n)
{
    (void)n;
    return ask_log(baseline_log_last, last);
}

typedef struct dxl_salvaged log_salvager(const uint8_t *log, size_t n, uint8_t *out, size_t n_out, uint32_t *report, size_t n_report);

/* The log without its last byte, so that its last segment is dropped. */
static uint16_t salvage_log(log_salvager *salvage, uint16_t last)
{
    static uint8_t out[sizeof log_bytes];
    static uint32_t report[2 * MOST_SEGMENTS];
    struct dxl_salvaged salvaged = salvage(log_bytes, n_log - 1, out, sizeof out, report, 2 * MOST_SEGMENTS);
    size_t figures = salvaged.dropped + salvaged.index_changed + salvaged.leftover;
    return mixed(last, (size_t)salvaged.count, figures, (uint8_t)report[0], (uint8_t)report[1], out[salvaged.count - 1]);
}

static uint16_t log_salvage_ours(uint16_t last, size_t n)
{
    (void)n;
    return salvage_log(dxl_log_salvage, last);
}

static uint16_t log_salvage_baseline(uint16_t last, size_t n)
{
    (void)n;
    return salvage_log(baseline_log_salvage, last);
}

/* What the device hears: a body that has a goal position at an offset, or none. */
static uint8_t table[DXL_TABLE_BYTES];
static uint8_t body[1 + 4 + 200 * 5];
static size_t goal_at;

static void instruct(const uint8_t *bytes, size_t n, size_t goal)
{
    baseline_fresh(table, sizeof table);
    memcpy(body, bytes, n);
    goal_at = goal;
}

/* 200 devices with a goal each, ours the last. */
static size_t instruct_200(void)
{
    static const uint8_t first[5] = {0x83, 116, 0, 4, 0};
    instruct(first, sizeof first, 0);
    size_t n = sizeof first;
    for (unsigned i = 0; i < 200; i++) {
        body[n] = i < 199 ? (uint8_t)(i + 2) : 1;
        memset(body + n + 1, 0, 4);
        n += 5;
    }
    goal_at = n - 4;
    return n;
}

/* So many devices, ours the last, each with a goal to read or to write. */
static size_t instruct_bulk(uint8_t instruction, unsigned devices)
{
    size_t n = 1, entry = instruction == DXL_INST_BULK_WRITE ? 9 : 5;
    instruct(&instruction, n, 0);
    for (unsigned i = 0; i < devices; i++) {
        memset(body + n, 0, entry);
        body[n] = i < devices - 1 ? (uint8_t)(i + 2) : 1;
        body[n + 1] = 116;
        body[n + 3] = 4;
        n += entry;
    }
    if (instruction == DXL_INST_BULK_WRITE)
        goal_at = n - 4;
    return n;
}

typedef struct dxl_answer device(uint8_t *table, size_t n_table, struct dxl_registered registered, uint8_t kind, uint8_t id,
                                 const uint8_t *body, size_t n_body, uint8_t *reply, size_t n_reply);

static uint8_t reply[DXL_MIN_REPLY];
static const struct dxl_registered none;

static uint16_t folded(uint16_t last, const struct dxl_answer *answer)
{
    size_t end = answer->count > 0 ? (size_t)answer->count - 1 : 0;
    return (uint16_t)(last * 31u + (uint16_t)answer->count + (uint16_t)answer->slot + reply[end] + table[116] + 1);
}

static uint16_t told(device *hear, uint16_t last, size_t n)
{
    if (goal_at > 0) {
        body[goal_at] = (uint8_t)last;
        body[goal_at + 1] = (uint8_t)(last >> 8 & 15);
    }
    uint8_t id = body[0] >= DXL_INST_SYNC_READ ? DXL_BROADCAST_ID : 1;
    struct dxl_answer answer = hear(table, sizeof table, none, DXL_PACKET, id, body, n, reply, sizeof reply);
    return folded(last, &answer);
}

static uint16_t device_ours(uint16_t last, size_t n)
{
    return told(dxl_device, last, n);
}

static uint16_t device_baseline(uint16_t last, size_t n)
{
    return told(baseline_device, last, n);
}

/* The same in two calls, the second when its slot has come. */
typedef struct dxl_carried first(uint8_t *table, size_t n_table, struct dxl_registered registered, uint8_t kind, uint8_t id,
                                 const uint8_t *body, size_t n_body);
typedef int64_t second(struct dxl_reply reply, uint8_t *out, size_t n_out);

static uint16_t told_in_two(first *carry_out, second *status, uint16_t last, size_t n)
{
    if (goal_at > 0) {
        body[goal_at] = (uint8_t)last;
        body[goal_at + 1] = (uint8_t)(last >> 8 & 15);
    }
    struct dxl_carried carried = carry_out(table, sizeof table, none, DXL_PACKET, 1, body, n);
    struct dxl_answer answer = {status(carried.reply, reply, sizeof reply), carried.reply.slot, carried.registered};
    return folded(last, &answer);
}

static uint16_t two_ours(uint16_t last, size_t n)
{
    return told_in_two(dxl_carry_out, dxl_status, last, n);
}

static uint16_t two_baseline(uint16_t last, size_t n)
{
    return told_in_two(baseline_carry_out, baseline_status, last, n);
}

typedef struct dxl_answer exchanger(uint8_t *table, size_t n_table, struct dxl_registered registered, const uint8_t *packet,
                                    size_t n_packet, uint8_t *body, size_t n_body, uint8_t *reply, size_t n_reply);

/* The packet of the instruction, as received: the last answer picks one of 256 with other goals. */
static uint8_t received[256][64];

static void receive(size_t n)
{
    for (unsigned i = 0; i < 256; i++) {
        body[goal_at] = (uint8_t)i;
        baseline_encode(1, body[0], body + 1, n - 1, received[i], sizeof received[i], 0);
    }
}

static uint16_t exchanged(exchanger *exchange, uint16_t last, size_t n)
{
    static uint8_t unstuffed[DXL_MAX_BODY];
    const uint8_t *bytes = received[last & 255];
    struct dxl_answer answer =
        exchange(table, sizeof table, none, bytes, n, unstuffed, sizeof unstuffed, reply, sizeof reply);
    return folded(last, &answer);
}

/* Whether it judges the checksum: a packet in which that is wrong is silence. */
static int judges(exchanger *exchange, size_t n)
{
    static uint8_t unstuffed[DXL_MAX_BODY];
    uint8_t *end = &received[0][n - 1];
    *end ^= 1;
    struct dxl_answer answer =
        exchange(table, sizeof table, none, received[0], n, unstuffed, sizeof unstuffed, reply, sizeof reply);
    *end ^= 1;
    return answer.count == 0;
}

static uint16_t exchange_ours(uint16_t last, size_t n)
{
    return exchanged(dxl_exchange, last, n);
}

static uint16_t exchange_baseline(uint16_t last, size_t n)
{
    return exchanged(baseline_exchange, last, n);
}

/* The same in two calls. */
typedef struct dxl_carried packet_first(uint8_t *table, size_t n_table, struct dxl_registered registered, const uint8_t *packet,
                                        size_t n_packet, uint8_t *body, size_t n_body);

static uint16_t exchanged_in_two(packet_first *carry_out, second *status, uint16_t last, size_t n)
{
    static uint8_t unstuffed[DXL_MAX_BODY];
    struct dxl_carried carried =
        carry_out(table, sizeof table, none, received[last & 255], n, unstuffed, sizeof unstuffed);
    struct dxl_answer answer = {status(carried.reply, reply, sizeof reply), carried.reply.slot, carried.registered};
    return folded(last, &answer);
}

static uint16_t exchange_two_ours(uint16_t last, size_t n)
{
    return exchanged_in_two(dxl_carry_out_packet, dxl_status, last, n);
}

static uint16_t exchange_two_baseline(uint16_t last, size_t n)
{
    return exchanged_in_two(baseline_carry_out_packet, baseline_status, last, n);
}

/* A board that hears the line in chunks of n bytes: by the one call, by plain C, and by the loop of single calls. */
static const struct one_call our_call = {dxl_board_feed_parts, dxl_board_gap_parts};
static const struct one_call baseline_call = {baseline_board_feed_parts, baseline_board_gap_parts};

static uint16_t board_ours(uint16_t last, size_t n)
{
    return (uint16_t)(last * 31u + feed_by_one(&our_call, line, n_line, n).mixed);
}

static uint16_t board_baseline(uint16_t last, size_t n)
{
    return (uint16_t)(last * 31u + feed_by_one(&baseline_call, line, n_line, n).mixed);
}

static uint16_t board_loop(uint16_t last, size_t n)
{
    static const struct single_calls singles = {dxl_feed, dxl_gap, dxl_unstuff, dxl_carry_out};
    return (uint16_t)(last * 31u + feed_by_single(&singles, line, n_line, n).mixed);
}

/* Seconds of so many calls, and what the last one answered. */
static double seconds(work *f, size_t n, size_t calls, uint16_t *answer)
{
    uint16_t last = 0;
    double start = now();
    for (size_t i = 0; i < calls; i++)
        last = f(last, n);
    double end = now();
    *answer = last;
    return end - start;
}

/* amount: what one call gets done, in the unit that the row is given in by the second */
static int measure(const char *what, work *ours, work *baseline, size_t n, double amount, const char *unit)
{
    double our_rates[ROUNDS], baseline_rates[ROUNDS], ratios[ROUNDS];
    uint16_t a, b;
    size_t calls = 1;
    while (seconds(baseline, n, calls, &b) < ROUND_SECONDS)
        calls *= 2;
    seconds(ours, n, calls, &a); /* so that the caches are warm for both */
    for (int round = 0; round < ROUNDS; round++) {
        double ours_now = amount * (double)calls / seconds(ours, n, calls, &a);
        double baseline_now = amount * (double)calls / seconds(baseline, n, calls, &b);
        if (a != b) {
            fprintf(stderr, "%s, %zu bytes: the two answer differently\n", what, n);
            return 0;
        }
        our_rates[round] = ours_now;
        baseline_rates[round] = baseline_now;
        ratios[round] = ours_now / baseline_now;
    }
    printf("%-30s %8zu %-8s %10.2f %10.2f %8.2f\n", what, n, unit, median(our_rates), median(baseline_rates), median(ratios));
    fflush(stdout);
    return 1;
}

static int measure_bytes(const char *what, work *ours, work *baseline, size_t n)
{
    return measure(what, ours, baseline, n, (double)n * 1e-6, "MB/s");
}

static int measure_checksum(const char *what, work *ours, work *baseline)
{
    return measure_bytes(what, ours, baseline, 14) && measure_bytes(what, ours, baseline, 1031)
           && measure_bytes(what, ours, baseline, LARGEST);
}

static int measure_flips(size_t n)
{
    return measure("flipped byte, or a whole pass", flip_ours, flip_baseline, n, 1e-6, "Mcalls/s");
}

/* The whole line as one segment. */
static int measure_plain(const struct line_kind *kind)
{
    char what[64];
    snprintf(what, sizeof what, "plain, %s", kind->name);
    n_line = kind->fill(line, sizeof line);
    return measure(what, plain_ours, plain_baseline, n_line, (double)n_line * 1e-6, "MB/s");
}

/* The line as 16 segments. The baseline's question reads all of them, ours the one that the index names. */
static int measure_logs(void)
{
    n_line = lines[PACKETS_OF_14].fill(line, sizeof line);
    n_segments = 16;
    for (size_t i = 0; i < n_segments; i++)
        lengths[i] = (uint32_t)(n_line / n_segments);
    n_line = n_line / n_segments * n_segments;
    n_log = DXL_LOG_FRONT + DXL_LOG_ENTRY * n_segments + n_line;
    double amount = (double)n_line * 1e-6;
    return measure("log, written", log_write_ours, log_write_baseline, n_line, amount, "MB/s")
           && measure("log, tested", log_check_ours, log_check_baseline, n_line, amount, "MB/s")
           && measure("log, last packet", log_last_ours, log_last_baseline, n_line, 1e-3, "kcalls/s")
           && measure("log, salvaged", log_salvage_ours, log_salvage_baseline, n_line, amount, "MB/s");
}

/* The goals of so many devices, from ID 0 on. The answer changes the last of them, so that no call can be left out. */
enum { IDS = 253 };
static int32_t goals[IDS];
static uint8_t plan[1293];
static size_t n_plan;

typedef int64_t planner(const int32_t *goals, size_t n_goals, uint8_t *out, size_t n_out);
typedef int64_t plan_checker(const int32_t *goals, size_t n_goals, const uint8_t *plan, size_t n_plan);

static uint16_t write_plan(planner *write, uint16_t last, size_t n)
{
    goals[n - 1] = last & 0xFFF;
    int64_t count = write(goals, IDS, plan, sizeof plan);
    return mixed(last, (size_t)count, plan[n_plan - 2], plan[n_plan - 1], plan[n_plan - 7], plan[5]);
}

static uint16_t plan_ours(uint16_t last, size_t n)
{
    return write_plan(dxl_plan, last, n);
}

static uint16_t plan_baseline(uint16_t last, size_t n)
{
    return write_plan(baseline_plan, last, n);
}

/* Now and then the last goal is another one. */
static uint16_t check_plan(plan_checker *check, uint16_t last, size_t n)
{
    goals[n - 1] = (last & 0xFF) == 3;
    return mixed(last, (size_t)check(goals, IDS, plan, n_plan), 0, 0, 0, 0);
}

static uint16_t plan_check_ours(uint16_t last, size_t n)
{
    return check_plan(dxl_plan_check, last, n);
}

static uint16_t plan_check_baseline(uint16_t last, size_t n)
{
    return check_plan(baseline_plan_check, last, n);
}

static int measure_plan(size_t n)
{
    for (size_t id = 0; id < IDS; id++)
        goals[id] = id < n ? (int32_t)(16 * id) : -1;
    goals[n - 1] = 0;
    n_plan = (size_t)dxl_plan(goals, IDS, plan, sizeof plan);
    return measure("plan, checked", plan_check_ours, plan_check_baseline, n, 1e-3, "kcalls/s")
           && measure("plan, written", plan_ours, plan_baseline, n, 1e-3, "kcalls/s");
}

static int measure_device(const char *what, size_t n)
{
    return measure(what, device_ours, device_baseline, n, 1e-6, "Mcalls/s");
}

/* A line in chunks of 1, 64 and 4,096. */
static int measure_line(const char *call, const struct line_kind *kind, work *ours, work *baseline)
{
    static const size_t chunks[] = {1, 64, 4096};
    char what[64];
    snprintf(what, sizeof what, "%s, %s", call, kind->name);
    n_line = kind->fill(line, sizeof line);
    for (size_t i = 0; i < sizeof chunks / sizeof chunks[0]; i++)
        if (!measure(what, ours, baseline, chunks[i], (double)n_line * 1e-6, "MB/s"))
            return 0;
    return 1;
}

/* The call by value with one byte: it copies the record in and out. */
static int measure_value(void)
{
    n_line = lines[PACKETS_OF_14].fill(line, sizeof line);
    return measure("read by value, packets of 14", value_ours, value_baseline, 1, (double)n_line * 1e-6, "MB/s");
}

/* The record in a struct differs by the call alone, so that two lines show it. */
static int measure_reader(void)
{
    if (!measure_value())
        return 0;
    for (size_t i = 0; i < LINES; i++)
        if (!measure_line("read", &lines[i], read_ours, read_baseline) || !measure_plain(&lines[i]))
            return 0;
    static const struct line_kind old = {"packets of 10", packets_v1}, noise = {"worst noise", worst_noise_v1};
    return measure_line("read record", &lines[PACKETS_OF_14], record_ours, record_baseline)
           && measure_line("read record", &lines[RANDOM_BYTES], record_ours, record_baseline)
           && measure_line("read 1.0", &old, v1_ours, v1_baseline) && measure_line("read 1.0", &noise, v1_ours, v1_baseline);
}

static int measure_exchange(const char *what, size_t n)
{
    if (!judges(dxl_exchange, n) || !judges(baseline_exchange, n)) {
        fprintf(stderr, "%s: a wrong checksum is carried out\n", what);
        return 0;
    }
    return measure(what, exchange_ours, exchange_baseline, n, 1e-6, "Mcalls/s");
}

static int measure_instructions(void)
{
    static const uint8_t ping[] = {0x01}, get[] = {0x02, 132, 0, 4, 0}, put[] = {0x03, 116, 0, 0, 0, 0, 0};
    instruct(ping, sizeof ping, 0);
    int good = measure_device("device, Ping", sizeof ping);
    instruct(get, sizeof get, 0);
    good = good && measure_device("device, Read", sizeof get);
    instruct(put, sizeof put, 3);
    good = good && measure_device("device, Write", sizeof put);
    good = good && measure("device in two, Write", two_ours, two_baseline, sizeof put, 1e-6, "Mcalls/s");
    receive(sizeof put);
    good = good && measure_exchange("exchange, Write", sizeof put + 9);
    good = good && measure("exchange in two, Write", exchange_two_ours, exchange_two_baseline, sizeof put + 9, 1e-6, "Mcalls/s");
    good = good && measure_device("device, Sync Write", instruct_200());
    good = good && measure_device("device, Bulk Read", instruct_bulk(DXL_INST_BULK_READ, 200));
    return good && measure_device("device, Bulk Write", instruct_bulk(DXL_INST_BULK_WRITE, 110));
}

/* Before it is measured, each line is heard by both, and every part of the answers and every byte of the boards compared. */
static int measure_board_line(const struct board_line *kind)
{
    char what[64], loop[64];
    n_line = kind->fill(line, sizeof line);
    size_t chunk = kind->chunk > 0 ? kind->chunk : n_line;
    double amount = (double)n_line * 1e-6;
    snprintf(what, sizeof what, "board, %s", kind->name);
    snprintf(loop, sizeof loop, "board or loop, %s", kind->name);
    if (!boards_alike(&our_call, &baseline_call, line, n_line, chunk)) {
        fprintf(stderr, "%s: the boards differ\n", what);
        return 0;
    }
    dxl_board_start(&board_memory.board);
    return measure(what, board_ours, board_baseline, chunk, amount, "MB/s")
           && measure(loop, board_ours, board_loop, chunk, amount, "MB/s");
}

static int measure_boards(void)
{
    for (size_t i = 0; i < BOARD_LINES; i++)
        if (!measure_board_line(&board_lines[i]))
            return 0;
    return 1;
}

/* Every reader's call clears what its answer and its record do not use, which is most of it where the chunk is one byte. */
static void measure_clearing(void)
{
    static void *(*volatile clear)(void *, int, size_t) = memset;
    enum { CALLS = 1000000 };
    double start = now();
    for (int i = 0; i < CALLS; i++)
        clear(packet, 0, sizeof packet);
    double answer = now() - start;
    start = now();
    for (int i = 0; i < CALLS; i++)
        clear(reader.bytes, 0, sizeof reader.bytes);
    double record = now() - start;
    printf("\na reader's call: memset takes %.0f ns for the answer's %zu bytes and %.0f ns for the record's %zu\n",
           answer / CALLS * 1e9, sizeof packet, record / CALLS * 1e9, sizeof reader.bytes);
}

int main(int n_words, char **words)
{
    if (n_words != 2) {
        fprintf(stderr, "usage: bench KIT\n");
        return 1;
    }
    draw(input, sizeof input);
    draw_longest(longest);
    printf("ours: the archives of %s, compiled at -O3; baseline: plain C by\n%s\n", words[1], BASELINE_BUILD);
    printf("size: bytes of a call, for the reader of a chunk, for the plain one of the segment; ratio: ours to baseline,\n"
           "median of %d rounds\n\n",
           ROUNDS);
    printf("%-30s %8s %-8s %10s %10s %8s\n", "what", "size", "unit", "ours", "baseline", "ratio");
    int good = measure_checksum("checksum", crc_ours, crc_baseline)
               && measure_checksum("checksum, sixteen numbers", small_ours, small_baseline)
               && measure_checksum("checksum, no table", fold_ours, crc_baseline)
               && measure_flips(14) && measure_flips(1031) && measure_flips(LARGEST)
               && measure_bytes("encode", encode_ours, encode_baseline, 14)
               && measure_bytes("encode", encode_ours, encode_baseline, DXL_MAX_PACKET)
               && measure_bytes("encode 1.0", encode_v1_ours, encode_v1_baseline, 10)
               && measure_bytes("encode 1.0", encode_v1_ours, encode_v1_baseline, DXL_V1_MAX_PACKET) && measure_reader()
               && measure_logs() && measure_plan(2) && measure_plan(253) && measure_instructions() && measure_boards();
    if (good)
        measure_clearing();
    return good ? 0 : 1;
}
