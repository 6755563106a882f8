/*
 * How deep the stack of each export gets. A call runs on a stack of its own that was filled with a pattern; the lowest byte that
 * has another value afterwards is as deep as it got. That is done with two patterns, so that no byte written with the pattern's
 * value is missed. The depth counts from the stack pointer in the caller: the return address and what is passed on the stack are
 * in it. It is exact for the inputs tried here; what a function reserves below that and writes on none of them does not show.
 */
#define _XOPEN_SOURCE 700
#include <stdio.h>
#include <stdlib.h>
#include <string.h>
#include <ucontext.h>

#include "mednukals.h"

enum { STACK_BYTES = 65536 };

static uint8_t stack[STACK_BYTES];
static ucontext_t here, there;

/* The stack pointer of the function that calls the export. */
static uint8_t *top;
#define MARK_TOP() __asm__ volatile("mov %%rsp, %0" : "=r"(top))

/* What the exports borrow, and where their answers go, so that no call can be left out. */
static uint8_t line[16384], held[DXL_MAX_HELD], packet[DXL_MAX_PACKET], params[1100], out[1100];
static uint8_t table[DXL_TABLE_BYTES], reply[DXL_MIN_REPLY], body[DXL_MAX_BODY];
static uint8_t received[2][DXL_MAX_PACKET];
static struct dxl_reader reader;
static size_t n_line, count, n_body, n_received;
static volatile int64_t answered;

/* Encoder and reader of Protocol 2.0, or those of an old board in their place. */
static int64_t (*encode)(uint8_t id, uint8_t instruction, const uint8_t *params, size_t n_params, uint8_t *out, size_t n_out,
                         size_t at) = dxl_encode;
static struct dxl_step (*feed)(uint8_t *held, size_t *count, const uint8_t *chunk, size_t n, uint8_t *packet) = dxl_feed;
static struct dxl_step (*gap)(uint8_t *held, size_t *count, uint8_t *packet) = dxl_gap;

static void call_crc16(void)
{
    MARK_TOP();
    for (size_t n = 0; n <= sizeof line; n = n * 2 + 1)
        answered = dxl_crc16(0, line, n);
}

static void call_crc16_flipped(void)
{
    MARK_TOP();
    for (size_t n = 0; n <= sizeof line; n = n * 2 + 1)
        answered = dxl_crc16_flipped(0, line, n, SIZE_MAX - n);
}

/* Parameters of every number, with as many places to stuff as there can be. */
static void call_encode(void)
{
    MARK_TOP();
    for (size_t n = 0; n <= sizeof params; n++)
        answered = encode(1, 0x55, params, n, out, sizeof out, n % 90);
}

/* Bodies of every number of bytes. */
static void call_unstuff(void)
{
    MARK_TOP();
    for (size_t n = 0; n <= sizeof packet; n++)
        answered = dxl_unstuff(packet, n, out, sizeof out);
}

static void call_feed(void)
{
    MARK_TOP();
    for (size_t n = 1; n <= sizeof line; n *= 8) {
        struct dxl_step step;
        count = 0;
        for (size_t at = 0; at < n_line; at += step.taken) {
            step = feed(held, &count, line + at, n < n_line - at ? n : n_line - at, packet);
            answered = step.kind;
        }
    }
}

/* The record is full, and all of it is read. */
static void call_gap(void)
{
    struct dxl_step step;
    MARK_TOP();
    do {
        step = gap(held, &count, packet);
        answered = step.kind;
    } while (step.kind != DXL_NO_EVENT);
}

/* The same on the record in one struct. */
static void call_reader_feed(void)
{
    MARK_TOP();
    for (size_t n = 1; n <= sizeof line; n *= 8) {
        struct dxl_step step;
        reader.count = 0;
        for (size_t at = 0; at < n_line; at += step.taken) {
            step = dxl_reader_feed(&reader, line + at, n < n_line - at ? n : n_line - at, packet);
            answered = step.kind;
        }
    }
}

static void call_reader_gap(void)
{
    struct dxl_step step;
    memcpy(reader.bytes, held, sizeof held);
    reader.count = count;
    MARK_TOP();
    do {
        step = dxl_reader_gap(&reader, packet);
        answered = step.kind;
    } while (step.kind != DXL_NO_EVENT);
}

/* The registered writes that are tried: none, and one of a goal position. */
static const struct dxl_registered REGISTERED[2] = {{0, 0, {0}, 0, 0}, {116, 4, {0}, 0, 4095}};

/* The same lines into a board, and a record that is full. */
static void call_board_line(void)
{
    MARK_TOP();
    for (size_t n = 1; n <= sizeof line; n *= 8) {
        struct dxl_board_step step;
        count = 0;
        for (size_t at = 0; at < n_line; at += step.taken) {
            step = dxl_board_feed_parts(held, &count, line + at, n < n_line - at ? n : n_line - at, packet, table, REGISTERED[0]);
            answered = step.kind;
        }
    }
}

static void call_board_held(void)
{
    struct dxl_board_step step;
    MARK_TOP();
    do {
        step = dxl_board_gap_parts(held, &count, packet, table, REGISTERED[0]);
        answered = step.kind;
    } while (step.kind != DXL_NO_EVENT);
}

/* All kinds of events, from every offset to the next of them. */
static void call_next_event(void)
{
    MARK_TOP();
    for (size_t from = 0; from <= n_line; from++)
        answered = dxl_next_event(line, n_line, from).kind;
}

/* The line twice as the segments of a log. */
static uint8_t log_bytes[DXL_LOG_FRONT + 2 * (DXL_LOG_ENTRY + sizeof line)];
static size_t n_log;

static void call_log_write(void)
{
    static uint8_t bytes[2 * sizeof line];
    const uint32_t lengths[] = {(uint32_t)n_line, (uint32_t)n_line};
    memcpy(bytes, line, n_line);
    memcpy(bytes + n_line, line, n_line);
    MARK_TOP();
    answered = dxl_log_write(bytes, 2 * n_line, lengths, 2, log_bytes, sizeof log_bytes);
    n_log = (size_t)answered;
}

static void call_log_check(void)
{
    MARK_TOP();
    answered = dxl_log_check(log_bytes, n_log);
}

static void call_log_last(void)
{
    MARK_TOP();
    for (unsigned id = 0; id < 256; id++)
        answered = dxl_log_last(log_bytes, n_log, (uint8_t)id).found;
}

static void call_log_salvage(void)
{
    static uint8_t out[sizeof log_bytes];
    static uint32_t report[4];
    MARK_TOP();
    answered = dxl_log_salvage(log_bytes, n_log - 1, out, sizeof out, report, 4).count;
}

static void call_version(void)
{
    MARK_TOP();
    answered = dxl_version();
}

static void call_fresh(void)
{
    MARK_TOP();
    answered = dxl_fresh(table, sizeof table) + dxl_fresh(table, 1);
}

static void call_measure(void)
{
    MARK_TOP();
    answered = dxl_measure(table, sizeof table, -1, 1) + dxl_measure(table, 1, -1, 1);
}

/* To the device itself and to all, as a packet and as a bad checksum, with and without a registered write. */
static void call_device(void)
{
    MARK_TOP();
    for (int i = 0; i < 8; i++) {
        uint8_t id = i & 1 ? 1 : DXL_BROADCAST_ID, kind = i & 2 ? DXL_PACKET : DXL_BAD_CHECKSUM;
        answered =
            dxl_device(table, sizeof table, REGISTERED[i >> 2], kind, id, body, n_body, reply, sizeof reply).count;
    }
}

/* The same in two calls. */
static void call_carry_out(void)
{
    MARK_TOP();
    for (int i = 0; i < 8; i++) {
        uint8_t id = i & 1 ? 1 : DXL_BROADCAST_ID, kind = i & 2 ? DXL_PACKET : DXL_BAD_CHECKSUM;
        answered = dxl_carry_out(table, sizeof table, REGISTERED[i >> 2], kind, id, body, n_body).refusal;
    }
}

static void call_carry_out_packet(void)
{
    MARK_TOP();
    for (int i = 0; i < 4; i++)
        answered = dxl_carry_out_packet(table, sizeof table, REGISTERED[i >> 1], received[i & 1], n_received, out, sizeof out).refusal;
}

static void call_status(void)
{
    struct dxl_reply waiting = {1, 1, 0xFF, 8, {0xFF, 0xFD, 0xFF, 0xFF, 0xFD, 0xFF, 0xFF, 0xFD}, 0};
    MARK_TOP();
    answered = dxl_status(waiting, reply, sizeof reply) + dxl_status(waiting, reply, 0);
}

/* The same as packets in their bytes. */
static void call_exchange(void)
{
    MARK_TOP();
    for (int i = 0; i < 4; i++) {
        const uint8_t *bytes = received[i & 1];
        answered = dxl_exchange(table, sizeof table, REGISTERED[i >> 1], bytes, n_received, out, sizeof out, reply, sizeof reply)
                       .count;
    }
}

/* The same into a board, in one chunk and in two. */
static void call_board_feed(void)
{
    MARK_TOP();
    for (int i = 0; i < 4; i++) {
        const uint8_t *bytes = received[i & 1];
        size_t half = n_received / 2;
        count = 0;
        answered = dxl_board_feed_parts(held, &count, bytes, n_received, packet, table, REGISTERED[i >> 1]).kind;
        answered = dxl_board_feed_parts(held, &count, bytes, half, packet, table, REGISTERED[i >> 1]).kind;
        answered = dxl_board_feed_parts(held, &count, bytes + half, n_received - half, packet, table, REGISTERED[i >> 1]).kind;
    }
}

/* And held when the gap comes. */
static void call_board_gap(void)
{
    MARK_TOP();
    for (int i = 0; i < 4; i++) {
        count = n_received < sizeof held ? n_received : sizeof held;
        memcpy(held, received[i & 1], count);
        answered = dxl_board_gap_parts(held, &count, packet, table, REGISTERED[i >> 1]).kind;
    }
}

static size_t depth(void (*call)(void), uint8_t pattern)
{
    memset(stack, pattern, sizeof stack);
    getcontext(&there);
    there.uc_stack.ss_sp = stack;
    there.uc_stack.ss_size = sizeof stack;
    there.uc_link = &here;
    makecontext(&there, call, 0);
    swapcontext(&here, &there);
    size_t lowest = 0;
    while (lowest < sizeof stack && stack[lowest] == pattern)
        lowest++;
    if (lowest == 0) {
        fprintf(stderr, "the stack of %d bytes was too short\n", STACK_BYTES);
        exit(1);
    }
    return (size_t)(top - (stack + lowest));
}

/* The first call binds the functions of the C library, which takes stack of its own, and counts not. */
static size_t deepest(void (*prepare)(void), void (*call)(void))
{
    size_t most = 0;
    for (int i = 0; i < 3; i++) {
        prepare();
        size_t now = depth(call, i % 2 == 0 ? 0xA5 : 0x5A);
        if (i > 0 && now > most)
            most = now;
    }
    return most;
}

static void nothing(void)
{
}

/* FF FF FD again and again. */
static void places_to_stuff(void)
{
    for (size_t i = 0; i < sizeof params; i++)
        params[i] = i % 3 == 2 ? 0xFD : 0xFF;
    for (size_t i = 0; i < sizeof packet; i++)
        packet[i] = i % 4 >= 2 ? 0xFD : 0xFF;
}

/* The worst noise, headers that each promise the longest packet; a status; the longest packet, good and bad. */
static void all_kinds(void)
{
    static const uint8_t header[7] = {0xFF, 0xFF, 0xFD, 0x00, 0x01, 0x00, 0x04};
    static const uint8_t parameters[1021];
    for (n_line = 0; n_line < 4200; n_line += sizeof header)
        memcpy(line + n_line, header, sizeof header);
    n_line += (size_t)dxl_encode(1, 0x55, parameters, 4, line, sizeof line, n_line);
    for (int i = 0; i < 2; i++)
        n_line += (size_t)dxl_encode(1, 0x03, parameters, sizeof parameters, line, sizeof line, n_line);
    line[n_line - 1] ^= 1;
}

/* Behind a header that waits, packets good and bad. */
static void full_record(void)
{
    static const uint8_t parameters[4];
    all_kinds();
    memcpy(held, line, sizeof held);
    for (count = 7; count + 14 <= sizeof held; count += 14) {
        dxl_encode(1, 0x55, parameters, sizeof parameters, held, sizeof held, count);
        held[count + 13] ^= count % 28 == 7;
    }
    count = sizeof held;
}

/* The same of an old board: fronts three bytes apart, each promising the longest packet by the next one's first FF. */
static void all_kinds_v1(void)
{
    static const uint8_t parameters[253];
    for (n_line = 0; n_line < 1200; n_line++)
        line[n_line] = n_line % 3 == 2 ? 1 : 0xFF;
    n_line += (size_t)encode(1, 0, parameters, 4, line, sizeof line, n_line);
    for (int i = 0; i < 2; i++)
        n_line += (size_t)encode(1, 0x03, parameters, sizeof parameters, line, sizeof line, n_line);
    line[n_line - 1] ^= 1;
}

static void full_record_v1(void)
{
    static const uint8_t parameters[4];
    all_kinds_v1();
    memcpy(held, line, DXL_V1_MAX_HELD);
    for (count = 4; count + 10 <= DXL_V1_MAX_HELD; count += 10) {
        encode(1, 0, parameters, sizeof parameters, held, sizeof held, count);
        held[count + 9] ^= count % 20 == 4;
    }
    count = DXL_V1_MAX_HELD;
}

/* Each ID with a read or a write of 4 bytes at 116. */
static void list_bulk(size_t entry)
{
    memset(body + 1, 0, sizeof body - 1);
    for (size_t at = 1; at + entry <= sizeof body; at += entry) {
        body[at] = (uint8_t)((at - 1) / entry);
        body[at + 1] = 116;
        body[at + 3] = 4;
    }
}

/* A read or a write of 4 bytes at 116, or what has these bytes; a list behind it has each ID once. */
static void instruct(uint8_t instruction, size_t n)
{
    size_t entry = instruction == 0x83 ? 5 : 1;
    dxl_fresh(table, sizeof table);
    memset(body, 0, sizeof body);
    body[0] = instruction;
    body[1] = 116;
    body[3] = instruction == 0x03 || instruction == 0x04 ? 0 : 4;
    for (size_t at = 5; at < sizeof body; at += entry)
        body[at] = (uint8_t)((at - 5) / entry);
    if (instruction == 0x92 || instruction == 0x93)
        list_bulk(instruction == 0x92 ? 5 : 9);
    n_body = n;
}

/* The packets with this body, to the device itself and to all. */
static void receive(void)
{
    n_received = 0;
    for (int i = 0; i < 2 && n_body > 0; i++) {
        int64_t n = dxl_encode(i ? 1 : DXL_BROADCAST_ID, body[0], body + 1, n_body - 1, received[i], sizeof received[i], 0);
        n_received = n > 0 ? (size_t)n : 0;
    }
}

/* Every instruction with every number of parameters that matters to one of them. */
static size_t deepest_device(void (*call)(void))
{
    static const uint8_t instructions[] = {0x01, 0x02, 0x03, 0x04, 0x05, 0x06, 0x08, 0x55, 0x82, 0x83, 0x92, 0x93, 0x9A};
    static const size_t numbers[] = {0, 1, 2, 3, 4, 5, 6, 7, 11, 19, 105, 258, 1000, 1005, 1006, DXL_MAX_BODY};
    size_t most = 0;
    for (size_t i = 0; i < sizeof instructions; i++) {
        for (size_t j = 0; j < sizeof numbers / sizeof numbers[0]; j++) {
            instruct(instructions[i], numbers[j]);
            size_t now = deepest(receive, call);
            if (now > most)
                most = now;
        }
    }
    return most;
}

/* Goals for all devices, and their plan. */
static int32_t goals[253];
static uint8_t plan[1293];

static void call_plan(void)
{
    MARK_TOP();
    answered = dxl_plan(goals, 253, plan, sizeof plan);
}

static void call_plan_check(void)
{
    MARK_TOP();
    answered = dxl_plan_check(goals, 253, plan, sizeof plan);
}

/* By what the line brings and by what it asks for. */
static size_t deepest_board(void (*prepare)(void), void (*by_line)(void), void (*by_instruction)(void))
{
    size_t line_depth = deepest(prepare, by_line), instruction_depth = deepest_device(by_instruction);
    return line_depth > instruction_depth ? line_depth : instruction_depth;
}

static void tell(const char *name, size_t bytes)
{
    printf("  %-20s %6zu\n", name, bytes);
}

static void tell_old_boards(void)
{
    encode = dxl_p1_encode;
    feed = dxl_p1_feed;
    gap = dxl_p1_gap;
    tell("dxl_p1_encode", deepest(places_to_stuff, call_encode));
    tell("dxl_p1_feed", deepest(all_kinds_v1, call_feed));
    tell("dxl_p1_gap", deepest(full_record_v1, call_gap));
    encode = dxl_mercury_encode;
    feed = dxl_mercury_feed;
    gap = dxl_mercury_gap;
    tell("dxl_mercury_encode", deepest(places_to_stuff, call_encode));
    tell("dxl_mercury_feed", deepest(all_kinds_v1, call_feed));
    tell("dxl_mercury_gap", deepest(full_record_v1, call_gap));
}

int main(void)
{
    dxl_fresh(table, sizeof table);
    printf("greatest stack depth of each export, in bytes\n");
    tell("dxl_version", deepest(nothing, call_version));
    tell("dxl_crc16", deepest(nothing, call_crc16));
    tell("dxl_crc16_flipped", deepest(nothing, call_crc16_flipped));
    tell("dxl_encode", deepest(places_to_stuff, call_encode));
    tell("dxl_unstuff", deepest(places_to_stuff, call_unstuff));
    tell("dxl_feed", deepest(all_kinds, call_feed));
    tell("dxl_gap", deepest(full_record, call_gap));
    tell("dxl_reader_feed", deepest(all_kinds, call_reader_feed));
    tell("dxl_reader_gap", deepest(full_record, call_reader_gap));
    tell("dxl_next_event", deepest(all_kinds, call_next_event));
    tell("dxl_log_write", deepest(all_kinds, call_log_write));
    tell("dxl_log_check", deepest(nothing, call_log_check));
    tell("dxl_log_last", deepest(nothing, call_log_last));
    tell("dxl_log_salvage", deepest(nothing, call_log_salvage));
    tell("dxl_fresh", deepest(nothing, call_fresh));
    tell("dxl_measure", deepest(nothing, call_measure));
    tell("dxl_board_feed_parts", deepest_board(all_kinds, call_board_line, call_board_feed));
    tell("dxl_board_gap_parts", deepest_board(full_record, call_board_held, call_board_gap));
    tell("dxl_device", deepest_device(call_device));
    tell("dxl_exchange", deepest_device(call_exchange));
    tell("dxl_carry_out", deepest_device(call_carry_out));
    tell("dxl_carry_out_packet", deepest_device(call_carry_out_packet));
    tell("dxl_status", deepest(nothing, call_status));
    tell("dxl_plan", deepest(nothing, call_plan));
    tell("dxl_plan_check", deepest(nothing, call_plan_check));
    tell_old_boards();
    return 0;
}
