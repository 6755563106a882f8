/*
 * A device in C, by the loop that mednukals.h shows: it hears what the maker's pages print as sent to device 1, in chunks of
 * several sizes and with noise before it, and answers as they print.
 */
#include <stdio.h>
#include <string.h>

#include "mednukals.h"

/* What was sent, and in which slot at last. */
static uint8_t sent[512];
static size_t n_sent;
static size_t last_slot;

static unsigned failures;

static void expect(int holds, const char *what, size_t chunk)
{
    if (!holds) {
        fprintf(stderr, "C: chunks of %zu: %s\n", chunk, what);
        failures++;
    }
}

static void send_in_slot(const uint8_t *bytes, size_t n, size_t slot)
{
    if (n <= sizeof sent - n_sent) {
        memcpy(sent + n_sent, bytes, n);
        n_sent += n;
    }
    last_slot = slot;
}

static void refused(int number)
{
    fprintf(stderr, "C: refused with %d\n", number);
    failures++;
}

/* ---- the loop, as the header shows it; tests/docs_test.py compares them ---- */

static struct dxl_board board;
static struct dxl_reply waiting;

static void send(const uint8_t *bytes, size_t n)
{
    send_in_slot(bytes, n, waiting.slot);
}

void slot_came(void)
{
    uint8_t status[DXL_MIN_REPLY];
    int64_t n = dxl_status(waiting, status, sizeof status);
    if (n < 0)
        refused((int)-n);
    if (n > 0)
        send(status, (size_t)n);
    waiting.speaks = 0;
}

static int heard(struct dxl_board_step step)
{
    if (step.kind == DXL_NO_EVENT)
        return 0;
    if (step.kind > DXL_BAD_CHECKSUM) {
        refused(step.kind);
        return 0;
    }
    if (step.kind == DXL_PACKET && board.packet[7] != DXL_INST_STATUS)
        waiting.speaks = 0;
    if (step.reply.speaks) {
        waiting = step.reply;
        if (waiting.slot == 0)
            slot_came();
    }
    return 1;
}

void bytes_came(const uint8_t *chunk, size_t n)
{
    struct dxl_board_step step;
    do {
        step = dxl_board_feed(&board, chunk, n);
        chunk += step.taken;
        n -= step.taken;
    } while (heard(step));
}

void line_was_silent(void)
{
    while (heard(dxl_board_gap(&board)))
        ;
}

/* ---- single calls, likewise ---- */

static struct dxl_reader reader;
static uint8_t packet[DXL_MAX_PACKET], body[DXL_MAX_BODY];
static uint8_t table[DXL_TABLE_BYTES], reply[DXL_MIN_REPLY];
static struct dxl_registered registered;

static int same_registered(struct dxl_registered a, struct dxl_registered b)
{
    return a.address == b.address && a.count == b.count && memcmp(a.bytes, b.bytes, 8) == 0 && a.min == b.min && a.max == b.max;
}

static int same_reply(struct dxl_reply a, struct dxl_reply b)
{
    return a.speaks == b.speaks && a.id == b.id && a.error == b.error && a.count == b.count && memcmp(a.bytes, b.bytes, 8) == 0
           && a.slot == b.slot;
}

static struct dxl_reply carry_out(struct dxl_step step)
{
    struct dxl_carried carried;
    if (step.kind == DXL_PACKET)
        carried = dxl_carry_out_packet(table, sizeof table, registered, packet, step.count, body, sizeof body);
    else
        carried = dxl_carry_out(table, sizeof table, registered, step.kind, step.id, body, 0);
    if (carried.refusal != 0)
        refused((int)-carried.refusal);
    registered = carried.registered;
    return carried.reply;
}

/* ---- tests ---- */

/* The first bytes promise a packet that never comes; what stands in it is heard at the gap. */
static const uint8_t noise[] = {0xFF, 0xFF, 0xFD, 0xFF, 0xFF, 0xFD, 0x00, 0x07, 0x00, 0x04};
static const uint8_t line[] = {
    0xFF, 0xFF, 0xFD, 0x00, 0x01, 0x03, 0x00, 0x01, 0x19, 0x4E,                                     /* Ping */
    0xFF, 0xFF, 0xFD, 0x00, 0x01, 0x07, 0x00, 0x02, 0x84, 0x00, 0x04, 0x00, 0x1D, 0x15,             /* Read at 132 */
    0xFF, 0xFF, 0xFD, 0x00, 0x01, 0x09, 0x00, 0x03, 0x74, 0x00, 0x00, 0x02, 0x00, 0x00, 0xCA, 0x89, /* Write of 512 at 116 */
    0xFF, 0xFF, 0xFD, 0x00, 0x01, 0x09, 0x00, 0x04, 0x68, 0x00, 0xC8, 0x00, 0x00, 0x00, 0xAE, 0x8E, /* Reg Write of 200 at 104 */
    0xFF, 0xFF, 0xFD, 0x00, 0x01, 0x03, 0x00, 0x05, 0x02, 0xCE,                                     /* Action */
    0xFF, 0xFF, 0xFD, 0x00, 0xFE, 0x09, 0x00, 0x82, 0x84, 0x00, 0x04, 0x00, 0x01, 0x02, 0xCE, 0xFA, /* Sync Read at 132 */
    0xFF, 0xFF, 0xFD, 0x00, 0xFE, 0x03, 0x00, 0x01, 0x31, 0x42,                                     /* Ping to all */
};
static const uint8_t wanted[] = {
    0xFF, 0xFF, 0xFD, 0x00, 0x01, 0x07, 0x00, 0x55, 0x00, 0x06, 0x04, 0x26, 0x65, 0x5D,
    0xFF, 0xFF, 0xFD, 0x00, 0x01, 0x08, 0x00, 0x55, 0x00, 0xA6, 0x00, 0x00, 0x00, 0x8C, 0xC0,
    0xFF, 0xFF, 0xFD, 0x00, 0x01, 0x04, 0x00, 0x55, 0x00, 0xA1, 0x0C,
    0xFF, 0xFF, 0xFD, 0x00, 0x01, 0x04, 0x00, 0x55, 0x00, 0xA1, 0x0C,
    0xFF, 0xFF, 0xFD, 0x00, 0x01, 0x04, 0x00, 0x55, 0x00, 0xA1, 0x0C,
    0xFF, 0xFF, 0xFD, 0x00, 0x01, 0x08, 0x00, 0x55, 0x00, 0xA6, 0x00, 0x00, 0x00, 0x8C, 0xC0,
    0xFF, 0xFF, 0xFD, 0x00, 0x01, 0x07, 0x00, 0x55, 0x00, 0x06, 0x04, 0x26, 0x65, 0x5D,
};

static void feed_all(const uint8_t *bytes, size_t n, size_t chunk)
{
    for (size_t at = 0; at < n; at += chunk)
        bytes_came(bytes + at, chunk < n - at ? chunk : n - at);
}

static void exchange(size_t chunk, int with_noise)
{
    n_sent = 0;
    dxl_board_start(&board);
    expect(dxl_measure(board.table, sizeof board.table, 166, 0) == 0, "the measurement is refused", chunk);
    if (with_noise)
        feed_all(noise, sizeof noise, chunk);
    feed_all(line, sizeof line, chunk);
    if (with_noise) {
        expect(n_sent == 0, "a packet inside one that is still arriving is answered", chunk);
        line_was_silent();
    }
    expect(board.count == 0, "bytes are held at the end", chunk);
    expect(waiting.speaks && waiting.slot == 1, "the reply to Ping to all does not wait for its slot", chunk);
    slot_came();
    expect(n_sent == sizeof wanted && memcmp(sent, wanted, sizeof wanted) == 0, "the answers are not those printed", chunk);
    expect(last_slot == 1, "Ping to all is not answered in the slot of the own ID", chunk);
    expect(board.table[116] == 0 && board.table[117] == 2, "the goal position is not 512", chunk);
    expect(board.table[104] == 200 && board.table[69] == 0, "the registered write is not carried out", chunk);
    expect(board.registered.count == 0, "the registered write is still there", chunk);
}

/* What the reader has found is carried out; whether the board has done all of that too. */
static int alike(struct dxl_step step, struct dxl_board_step done)
{
    int same = same_reply(done.reply, carry_out(step)) && same_registered(done.registered, registered)
               && same_registered(board.registered, registered) && memcmp(board.table, table, sizeof table) == 0;
    return same && done.taken == step.taken && done.count == step.count && done.kind == step.kind && done.id == step.id
           && board.count == reader.count && memcmp(board.held, reader.bytes, sizeof reader.bytes) == 0;
}

/* The same by single calls: each step of a board is one of the reader, carried out, and the held bytes are the same. [B1 B3 B8] */
static void in_single_calls(size_t chunk, int with_noise)
{
    static const struct dxl_registered none;
    uint8_t bytes[sizeof noise + sizeof line];
    struct dxl_step step;
    memcpy(bytes, noise, sizeof noise);
    memcpy(bytes + sizeof noise, line, sizeof line);
    dxl_board_start(&board);
    dxl_fresh(table, sizeof table);
    registered = none;
    memset(&reader, 0, sizeof reader);
    for (size_t at = with_noise ? 0 : sizeof noise; at < sizeof bytes;) {
        size_t n = chunk < sizeof bytes - at ? chunk : sizeof bytes - at;
        do {
            step = dxl_reader_feed(&reader, bytes + at, n, packet);
            expect(alike(step, dxl_board_feed(&board, bytes + at, n)), "a board's feeding call is not the single calls", chunk);
            at += step.taken;
            n -= step.taken;
        } while (step.kind != DXL_NO_EVENT);
    }
    do {
        step = dxl_reader_gap(&reader, packet);
        expect(alike(step, dxl_board_gap(&board)), "a board's gap call is not the single calls", chunk);
    } while (step.kind != DXL_NO_EVENT);
    expect(table[117] == 2 && table[104] == 200, "the single calls have not carried out what was heard", chunk);
}

/* The same packets, each given to the device in one call. */
static void in_one_call(void)
{
    static const struct dxl_registered none;
    registered = none;
    n_sent = 0;
    expect(dxl_fresh(table, sizeof table) == 0 && dxl_measure(table, sizeof table, 166, 0) == 0, "the table is refused", 0);
    for (size_t at = 0; at < sizeof line;) {
        size_t n = 7 + line[at + 5] + 256 * (size_t)line[at + 6];
        struct dxl_answer answer =
            dxl_exchange(table, sizeof table, registered, line + at, n, body, sizeof body, reply, sizeof reply);
        registered = answer.registered;
        if (answer.count > 0)
            send_in_slot(reply, (size_t)answer.count, answer.slot);
        expect(memcmp(body, line + at + 7, n - 9) == 0, "in one call: the body buffer does not have the body", 0);
        at += n;
    }
    expect(n_sent == sizeof wanted && memcmp(sent, wanted, sizeof wanted) == 0, "in one call: the answers are not those printed", 0);
    expect(last_slot == 1 && table[117] == 2 && table[104] == 200, "in one call: slot or table are not those wanted", 0);
}

/* And by the two calls that wait for the slot in between: table, body buffer, registered write, slot and status are the same. */
static void in_two_calls(void)
{
    static const struct dxl_registered none;
    uint8_t one[DXL_TABLE_BYTES], two[DXL_TABLE_BYTES], other[DXL_MIN_REPLY], second[DXL_MAX_BODY] = {0};
    struct dxl_registered left = none;
    dxl_fresh(one, sizeof one);
    dxl_measure(one, sizeof one, 166, 0x20);
    memcpy(two, one, sizeof two);
    memset(body, 0, sizeof body);
    for (size_t at = 0; at < sizeof line;) {
        size_t n = 7 + line[at + 5] + 256 * (size_t)line[at + 6];
        struct dxl_answer answer = dxl_exchange(one, sizeof one, left, line + at, n, body, sizeof body, reply, sizeof reply);
        struct dxl_carried carried = dxl_carry_out_packet(two, sizeof two, left, line + at, n, second, sizeof second);
        expect(carried.refusal == 0 && memcmp(one, two, sizeof one) == 0, "in two calls: another table", 0);
        expect(memcmp(body, second, sizeof body) == 0, "in two calls: another body buffer", 0);
        expect(same_registered(carried.registered, answer.registered), "in two calls: another registered write", 0);
        expect(carried.reply.speaks == (answer.count > 0) && carried.reply.slot == answer.slot, "in two calls: another slot", 0);
        expect(dxl_status(carried.reply, other, sizeof other) == answer.count, "in two calls: another count", 0);
        expect(answer.count == 0 || memcmp(reply, other, (size_t)answer.count) == 0, "in two calls: another status", 0);
        left = answer.registered;
        at += n;
    }
}

/* A reply may be any: its refusals in their order, before silence is looked at; what is past its count is not sent. */
static void lent_replies(void)
{
    struct dxl_reply lent = {2, 253, 0xFF, 9, {0xFF, 0xFD, 0xFF, 0xFF, 0xFD, 0xFF, 0xFF, 0xFD}, 7};
    memset(reply, 0xAA, sizeof reply);
    expect(dxl_status(lent, reply, 31) == -DXL_BAD_ID, "ID 253 is accepted", 0);
    lent.id = 252;
    expect(dxl_status(lent, reply, 31) == -DXL_TOO_LONG, "nine bytes are accepted", 0);
    lent.count = 8;
    expect(dxl_status(lent, reply, 31) == -DXL_SHORT_REPLY, "31 bytes are accepted", 0);
    lent.speaks = 0;
    expect(dxl_status(lent, reply, 31) == -DXL_SHORT_REPLY, "silence is looked at before the room", 0);
    expect(dxl_status(lent, reply, 32) == 0 && reply[0] == 0xAA, "silence is written", 0);
    lent.speaks = 255;
    expect(dxl_status(lent, reply, 32) == 22 && reply[4] == 252 && reply[8] == 0xFF && reply[22] == 0xAA, "the longest status", 0);
    lent.count = 1;
    expect(dxl_status(lent, reply, 32) == 12 && reply[9] == 0xFF, "bytes past the count are sent", 0);
}

/* Action needs the limits at which the write was registered, though the goal suits those from before and those after it. */
static void changed_limits(void)
{
    static const struct dxl_registered none;
    const uint8_t goal[] = {DXL_INST_REG_WRITE, 116, 0, 0, 2, 0, 0}, max[] = {DXL_INST_WRITE, 48, 0, 0xA0, 0x0F, 0, 0};
    const uint8_t action[] = {DXL_INST_ACTION};
    uint8_t other[DXL_TABLE_BYTES], left[DXL_TABLE_BYTES];
    dxl_fresh(other, sizeof other);
    struct dxl_answer answer = dxl_device(other, sizeof other, none, DXL_PACKET, 1, goal, sizeof goal, reply, sizeof reply);
    expect(answer.count == 11 && reply[8] == 0 && answer.registered.min == 0 && answer.registered.max == 4095,
           "the registered write does not carry the limits", 0);
    answer = dxl_device(other, sizeof other, answer.registered, DXL_PACKET, 1, max, sizeof max, reply, sizeof reply);
    expect(answer.count == 11 && reply[8] == 0 && answer.registered.max == 4095, "max position is not lowered", 0);
    memcpy(left, other, sizeof left);
    left[DXL_REG_REGISTERED_INSTRUCTION] = 0;
    answer = dxl_device(other, sizeof other, answer.registered, DXL_PACKET, 1, action, sizeof action, reply, sizeof reply);
    expect(answer.count == 11 && reply[8] == DXL_ERROR_DATA_LIMIT, "a write registered at the old limits is carried out", 0);
    expect(memcmp(other, left, sizeof left) == 0, "more than byte 69 is written", 0);
    expect(answer.registered.address == 0 && answer.registered.count == 0 && memcmp(answer.registered.bytes, none.bytes, 8) == 0
               && answer.registered.min == 0 && answer.registered.max == 0,
           "the dropped write is not all 0", 0);
}

/* An instruction that device 1 hears; whether it replies with these bytes and no error. */
static int answers(uint8_t *other, struct dxl_registered *held, const uint8_t *said, size_t n, const uint8_t *data, size_t n_data)
{
    struct dxl_carried carried = dxl_carry_out(other, DXL_TABLE_BYTES, *held, DXL_PACKET, 1, said, n);
    *held = carried.registered;
    return carried.refusal == 0 && carried.reply.speaks && carried.reply.error == 0 && carried.reply.count == n_data
           && memcmp(carried.reply.bytes, data, n_data) == 0;
}

/* A model number and a firmware version that a board stores after dxl_fresh: no reset changes them, and Ping answers them. */
static void own_model(void)
{
    static const uint8_t resets[][2] = {
        {DXL_INST_REBOOT}, {DXL_INST_FACTORY_RESET, 0x02}, {DXL_INST_FACTORY_RESET, 0x01}, {DXL_INST_FACTORY_RESET, 0xFF}};
    const uint8_t ping[] = {DXL_INST_PING}, own[] = {0x34, 0x12, 7};
    const uint8_t read[] = {DXL_INST_READ, DXL_REG_MODEL_NUMBER, 0, DXL_SIZE_MODEL_NUMBER, 0};
    struct dxl_registered held = {0};
    uint8_t other[DXL_TABLE_BYTES];
    dxl_fresh(other, sizeof other);
    memcpy(other + DXL_REG_MODEL_NUMBER, own, DXL_SIZE_MODEL_NUMBER);
    other[DXL_REG_FIRMWARE_VERSION] = own[2];
    for (size_t i = 0; i < 4; i++) {
        expect(answers(other, &held, resets[i], i == 0 ? 1 : 2, own, 0), "a reset is refused", 0);
        expect(answers(other, &held, ping, sizeof ping, own, sizeof own), "Ping does not answer the board's own model", 0);
        expect(answers(other, &held, read, sizeof read, own, 2), "Read does not answer the board's own model number", 0);
    }
}

/* dxl_fresh does not know of the registered write: its caller makes that 0. */
static void fresh_in_mid_life(void)
{
    const uint8_t goal[] = {DXL_INST_REG_WRITE, DXL_REG_GOAL_POSITION, 0, 0, 2, 0, 0}, action[] = {DXL_INST_ACTION};
    struct dxl_registered held = {0};
    uint8_t other[DXL_TABLE_BYTES];
    for (int cleared = 0; cleared < 2; cleared++) {
        dxl_fresh(other, sizeof other);
        expect(answers(other, &held, goal, sizeof goal, goal, 0), "Reg Write is refused", 0);
        dxl_fresh(other, sizeof other);
        if (cleared)
            memset(&held, 0, sizeof held);
        expect(answers(other, &held, action, sizeof action, action, 0) == !cleared, "Action after dxl_fresh", 0);
        expect(other[DXL_REG_GOAL_POSITION + 1] == (cleared ? 0 : 2), "the goal position after dxl_fresh and Action", 0);
    }
}

/* A Reboot that was carried out is told by instruction and error, as the header and docs/INTEGRATING.md say. [B4 B5] */
static void reboots(void)
{
    static const struct {
        uint8_t id, instruction, params, damage;
    } said[] = {{1, DXL_INST_REBOOT, 0, 0}, {DXL_BROADCAST_ID, DXL_INST_REBOOT, 0, 0}, {2, DXL_INST_REBOOT, 0, 0},
                {1, DXL_INST_REBOOT, 1, 0}, {1, DXL_INST_REBOOT, 0, 1},                {1, DXL_INST_PING, 0, 0}};
    const uint8_t params[] = {0};
    uint8_t bytes[16];
    dxl_board_start(&board);
    for (size_t i = 0; i < sizeof said / sizeof said[0]; i++) {
        board.table[DXL_REG_LAMP] = 1;
        int64_t n = dxl_encode(said[i].id, said[i].instruction, params, said[i].params, bytes, sizeof bytes, 0);
        expect(n > 0, "a packet is refused", 0);
        bytes[n - 1] ^= said[i].damage;
        struct dxl_board_step step = dxl_board_feed(&board, bytes, (size_t)n);
        int told = step.instruction == DXL_INST_REBOOT && step.error == 0;
        expect(told == (board.table[DXL_REG_LAMP] == 0), "a Reboot is told wrongly", 0);
        line_was_silent();
    }
}

/* A status that waits for a later slot gives way to an instruction, whichever device that is for. */
static void gives_way(void)
{
    static const uint8_t ping_of_2[] = {0xFF, 0xFF, 0xFD, 0x00, 0x02, 0x03, 0x00, 0x01, 0x19, 0x72};
    static const uint8_t status_of_2[] = {0xFF, 0xFF, 0xFD, 0x00, 0x02, 0x04, 0x00, 0x55, 0x00, 0x29, 0x0C};
    bytes_came(line + sizeof line - 10, 10);
    bytes_came(status_of_2, sizeof status_of_2);
    expect(waiting.speaks, "a reply gives way to another device's status", 0);
    bytes_came(ping_of_2, sizeof ping_of_2);
    expect(!waiting.speaks, "a reply does not give way to a newer instruction", 0);
}

/* Every refusal once; nothing else changes. */
static void refusals(void)
{
    static const struct dxl_registered none;
    struct dxl_registered long_one = {104, 9, {1, 2, 3, 4, 5, 6, 7, 8}, -7, 7};
    const uint8_t ping[] = {0x01};
    uint8_t other[DXL_TABLE_BYTES];
    dxl_fresh(other, sizeof other);
    expect(dxl_fresh(other, 135) == -DXL_NOT_A_TABLE && dxl_measure(other, 135, 1, 1) == -DXL_NOT_A_TABLE, "a short table", 0);
    struct dxl_answer answer = dxl_device(other, 135, long_one, DXL_PACKET, 1, ping, 1, reply, 0);
    expect(answer.count == -DXL_NOT_A_TABLE && answer.slot == 0, "a short table is heard", 0);
    other[7] = 253;
    answer = dxl_device(other, sizeof other, long_one, DXL_PACKET, 1, ping, 1, reply, 0);
    expect(answer.count == -DXL_BAD_TABLE_ID && answer.registered.bytes[7] == 8, "ID 253 is accepted", 0);
    other[7] = 1;
    answer = dxl_device(other, sizeof other, long_one, DXL_PACKET, 1, ping, 1, reply, 0);
    expect(answer.count == -DXL_BAD_REGISTERED && answer.registered.address == 104 && answer.registered.count == 9
               && memcmp(answer.registered.bytes, long_one.bytes, 8) == 0 && answer.registered.min == -7
               && answer.registered.max == 7,
           "a registered write of nine bytes is accepted or changed", 0);
    struct dxl_carried carried = dxl_carry_out(other, sizeof other, long_one, DXL_PACKET, 1, ping, 1);
    expect(carried.refusal == -DXL_BAD_REGISTERED && carried.registered.count == 9 && carried.reply.speaks == 0 && carried.reply.id == 0,
           "the first call accepts a registered write of nine bytes, or answers it", 0);
    carried = dxl_carry_out_packet(other, sizeof other, none, line, 10, body, 0);
    expect(carried.refusal == -DXL_NO_ROOM && carried.reply.speaks == 0, "the first call accepts a body without room", 0);
    answer = dxl_device(other, sizeof other, none, DXL_NO_EVENT, 1, ping, 1, reply, DXL_MIN_REPLY - 1);
    expect(answer.count == -DXL_SHORT_REPLY, "a short reply buffer is accepted", 0);

    answer = dxl_exchange(other, sizeof other, none, line, 10, body, 0, reply, sizeof reply);
    expect(answer.count == -DXL_NO_ROOM, "a body buffer without room is accepted", 0);
    const uint8_t unstuffed[] = {0xFF, 0xFF, 0xFD, 0x00, 0x01, 0x05, 0x00, 0xFF, 0xFF, 0xFD, 0x00, 0x00};
    answer = dxl_exchange(other, 135, none, unstuffed, sizeof unstuffed, body, 0, reply, 0);
    expect(answer.count == -DXL_BAD_STUFFING, "a body without its stuffing is accepted", 0);
    answer = dxl_exchange(other, 135, none, line, 10, body, sizeof body, reply, sizeof reply);
    expect(answer.count == -DXL_NOT_A_TABLE, "a short table hears a packet", 0);

    const uint8_t bad_checksum[] = {0xFF, 0xFF, 0xFD, 0x00, 0x01, 0x03, 0x00, 0x01, 0x19, 0x4F};
    answer = dxl_exchange(other, sizeof other, none, bad_checksum, sizeof bad_checksum, body, sizeof body, reply, sizeof reply);
    expect(answer.count == 0, "a packet with a wrong checksum is answered", 0);
    answer = dxl_exchange(other, sizeof other, none, line, 11, body, sizeof body, reply, sizeof reply);
    expect(answer.count == 0, "a byte behind the packet is overlooked", 0);

    reader.count = DXL_MAX_HELD + 1;
    struct dxl_step step = dxl_reader_feed(&reader, line, sizeof line, packet);
    expect(step.kind == DXL_BAD_READER && step.taken == 0 && step.count == 0 && step.id == 0, "1,031 held bytes are fed", 0);
    step = dxl_reader_gap(&reader, packet);
    expect(step.kind == DXL_BAD_READER && reader.count == DXL_MAX_HELD + 1, "1,031 held bytes meet a gap", 0);
    step = dxl_feed(reader.bytes, &reader.count, line, sizeof line, packet);
    expect(step.kind == DXL_BAD_READER && reader.count == DXL_MAX_HELD + 1, "1,031 held bytes are fed by parts", 0);
}

int main(void)
{
    static const size_t chunks[] = {1, 3, 7, 64, sizeof line};
    for (size_t i = 0; i < sizeof chunks / sizeof chunks[0]; i++) {
        for (int with_noise = 0; with_noise < 2; with_noise++) {
            exchange(chunks[i], with_noise);
            in_single_calls(chunks[i], with_noise);
        }
    }
    in_one_call();
    in_two_calls();
    lent_replies();
    changed_limits();
    own_model();
    fresh_in_mid_life();
    reboots();
    gives_way();
    refusals();
    if (failures != 0)
        return 1;
    printf("C: a device answers the published exchanges as printed, in chunks of 1, 3, 7 and 64 bytes and in one\n");
    return 0;
}
