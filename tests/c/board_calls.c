/*
 * The calls on a board from C: what a step tells, what the record keeps for its caller, and what a refusal leaves.
 */
#include <stdio.h>
#include <string.h>

#include "mednukals.h"

enum { ROOM = 64, OLD = 0xA5 };

static const uint8_t PING[] = {0xFF, 0xFF, 0xFD, 0x00, 0x01, 0x03, 0x00, 0x01, 0x19, 0x4E};
static const uint8_t DAMAGED_PING[] = {0xFF, 0xFF, 0xFD, 0x00, 0x01, 0x03, 0x00, 0x01, 0x19, 0x4F};
static const uint8_t WRITE_512[] = {0xFF, 0xFF, 0xFD, 0x00, 0x01, 0x09, 0x00, 0x03, 0x74, 0x00, 0x00, 0x02, 0x00, 0x00, 0xCA, 0x89};
static const uint8_t DONE[] = {0xFF, 0xFF, 0xFD, 0x00, 0x01, 0x04, 0x00, 0x55, 0x00, 0xA1, 0x0C};
static const uint8_t ERROR_03[] = {0xFF, 0xFF, 0xFD, 0x00, 0x01, 0x04, 0x00, 0x55, 0x03, 0xAB, 0x0C};
static const uint8_t NOTHING[1];

static struct dxl_board board;
static unsigned failures;

static void expect(int holds, const char *what)
{
    if (!holds) {
        fprintf(stderr, "board: %s\n", what);
        failures++;
    }
}

static int is_status(struct dxl_reply reply, const uint8_t *bytes, size_t n)
{
    uint8_t status[DXL_MIN_REPLY];
    int64_t count = dxl_status(reply, status, sizeof status);
    return count == (int64_t)n && memcmp(status, bytes, n) == 0;
}

/* One packet, as one chunk. */
static struct dxl_board_step say(uint8_t id, uint8_t instruction, const uint8_t *params, size_t n)
{
    uint8_t bytes[ROOM];
    int64_t count = dxl_encode(id, instruction, params, n, bytes, sizeof bytes, 0);
    expect(count > 0, "a packet is refused");
    struct dxl_board_step step = dxl_board_feed(&board, bytes, (size_t)count);
    expect(step.kind == DXL_PACKET && step.id == id, "a packet is not told");
    expect(step.taken == (size_t)count && step.count == (size_t)count, "the counts of a packet are wrong");
    expect(dxl_board_feed(&board, NOTHING, 0).kind == DXL_NO_EVENT, "there is an event behind the packet");
    return step;
}

/* Whatever was there before, the board is fresh, and nothing is held or registered. */
static void test_start(void)
{
    static struct dxl_board wanted;
    dxl_fresh(wanted.table, sizeof wanted.table);
    memset(&board, OLD, sizeof board);
    dxl_board_start(&board);
    expect(memcmp(&board, &wanted, sizeof board) == 0, "a started board is not fresh");
}

/* A board that nobody started: the header says what it does. */
static void test_all_zero(void)
{
    const uint8_t lamp_on[] = {DXL_REG_LAMP, 0, 1};
    memset(&board, 0, sizeof board);
    expect(say(1, DXL_INST_PING, NOTHING, 0).instruction == 0, "a board of zeros has ID 1");
    expect(say(0, DXL_INST_PING, NOTHING, 0).reply.speaks, "a board of zeros does not answer Ping");
    expect(!say(0, DXL_INST_WRITE, lamp_on, sizeof lamp_on).reply.speaks, "a board of zeros answers Write");
}

/* A damaged Ping, and a Write right behind it, however they are cut into chunks: 03, then 00. [B1 B3 B9] */
static void test_life(size_t chunk)
{
    uint8_t bytes[sizeof DAMAGED_PING + sizeof WRITE_512];
    struct dxl_board_step events[2] = {{0}}, step;
    size_t n_events = 0;
    memcpy(bytes, DAMAGED_PING, sizeof DAMAGED_PING);
    memcpy(bytes + sizeof DAMAGED_PING, WRITE_512, sizeof WRITE_512);
    dxl_board_start(&board);
    for (size_t at = 0; at < sizeof bytes;) {
        size_t left = chunk < sizeof bytes - at ? chunk : sizeof bytes - at;
        do {
            step = dxl_board_feed(&board, bytes + at, left);
            at += step.taken;
            left -= step.taken;
            if (step.kind != DXL_NO_EVENT && n_events++ < 2)
                events[n_events - 1] = step;
        } while (step.kind != DXL_NO_EVENT);
    }
    expect(n_events == 2 && board.count == 0, "there are not two events, or bytes are held");
    expect(events[0].kind == DXL_BAD_CHECKSUM && events[0].id == 1 && events[0].count == 0, "the damaged Ping is no bad checksum");
    expect(events[0].instruction == 0 && events[0].error == DXL_ERROR_CHECKSUM, "the damaged Ping is told wrongly");
    expect(is_status(events[0].reply, ERROR_03, sizeof ERROR_03), "the damaged Ping is not answered with 03");
    expect(events[1].kind == DXL_PACKET && events[1].id == 1 && events[1].count == sizeof WRITE_512, "the Write is no packet");
    expect(events[1].instruction == DXL_INST_WRITE && events[1].error == 0, "the Write is told wrongly");
    expect(is_status(events[1].reply, DONE, sizeof DONE), "the Write is not answered with 00");
    expect(board.table[DXL_REG_GOAL_POSITION + 1] == 2, "512 is not stored");
}

/* The board keeps the registered write: nothing is passed on or stored here. [B1] */
static void test_registered(void)
{
    const uint8_t goal[] = {DXL_REG_GOAL_POSITION, 0, 0, 2, 0, 0};
    dxl_board_start(&board);
    expect(say(1, DXL_INST_REG_WRITE, goal, sizeof goal).error == 0, "Reg Write is refused");
    expect(board.registered.count == 4 && board.registered.max == 4095, "the board has not stored the registered write");
    expect(board.table[DXL_REG_GOAL_POSITION + 1] == 0, "Reg Write is carried out at once");
    expect(!say(2, DXL_INST_ACTION, NOTHING, 0).reply.speaks && board.registered.count == 4, "another device's Action drops it");
    expect(say(1, DXL_INST_ACTION, NOTHING, 0).error == 0, "Action is refused");
    expect(board.table[DXL_REG_GOAL_POSITION + 1] == 2, "the registered write is not carried out");
    expect(say(1, DXL_INST_ACTION, NOTHING, 0).error == DXL_ERROR_INSTRUCTION, "the registered write is still there");
}

/* What firmware is told, also where nothing is sent; a return level below 2 is the table's. [B4 B5] */
static void test_told(void)
{
    static const struct {
        uint8_t id, instruction, params[6], n, level, told, error, speaks;
    } said[] = {
        {1, DXL_INST_REBOOT, {0}, 0, 2, DXL_INST_REBOOT, 0, 1},
        {2, DXL_INST_REBOOT, {0}, 0, 2, 0, 0, 0},
        {DXL_BROADCAST_ID, DXL_INST_REBOOT, {0}, 0, 2, DXL_INST_REBOOT, 0, 0},
        {1, DXL_INST_REBOOT, {0}, 1, 2, DXL_INST_REBOOT, DXL_ERROR_DATA_LENGTH, 1},
        {DXL_BROADCAST_ID, DXL_INST_REBOOT, {0}, 1, 2, DXL_INST_REBOOT, DXL_ERROR_DATA_LENGTH, 0},
        {1, DXL_INST_WRITE, {DXL_REG_LAMP, 0, 2}, 3, 1, DXL_INST_WRITE, DXL_ERROR_DATA_RANGE, 0},
        {2, DXL_INST_WRITE, {DXL_REG_LAMP, 0, 2}, 3, 2, 0, 0, 0},
        {DXL_BROADCAST_ID, DXL_INST_SYNC_WRITE, {DXL_REG_LAMP, 0, 1, 0, 1, 2}, 6, 2, DXL_INST_SYNC_WRITE, DXL_ERROR_DATA_RANGE, 0},
        {DXL_BROADCAST_ID, DXL_INST_FACTORY_RESET, {0xFF}, 1, 2, DXL_INST_FACTORY_RESET, 0, 0}, /* which does nothing */
        {1, DXL_INST_STATUS, {0}, 1, 2, DXL_INST_STATUS, 0, 0},
    };
    for (size_t i = 0; i < sizeof said / sizeof said[0]; i++) {
        dxl_board_start(&board);
        board.table[DXL_REG_STATUS_RETURN_LEVEL] = said[i].level;
        dxl_measure(board.table, sizeof board.table, 0, 4); /* the alert is no part of the error */
        struct dxl_board_step step = say(said[i].id, said[i].instruction, said[i].params, said[i].n);
        expect(step.instruction == said[i].told && step.error == said[i].error, "instruction or error are told wrongly");
        expect(step.reply.speaks == said[i].speaks, "it is answered, or not, against the rules");
    }
}

/* Noise that promises more than comes, and a Ping: it comes out at the gap. */
static void test_gap(void)
{
    const uint8_t promise[] = {0xFF, 0xFF, 0xFD, 0x00, 0x07, 0x00, 0x04};
    dxl_board_start(&board);
    expect(dxl_board_feed(&board, promise, sizeof promise).kind == DXL_NO_EVENT, "the noise is an event");
    expect(dxl_board_feed(&board, PING, sizeof PING).kind == DXL_NO_EVENT, "the Ping comes out before the gap");
    expect(board.count == sizeof promise + sizeof PING, "not all bytes are held");
    struct dxl_board_step step = dxl_board_gap(&board);
    expect(step.kind == DXL_PACKET && step.taken == 0 && step.reply.speaks, "the Ping does not come out at the gap");
    expect(dxl_board_gap(&board).kind == DXL_NO_EVENT && board.count == 0, "the gap is not finished");
}

/* No byte is left when the first event is told, and the second is still held: feed until there is none. */
static void test_feed_again(void)
{
    uint8_t bytes[20] = {0xFF, 0xFF, 0xFD, 0x00, 0x01, 0x0D, 0x00, 0x03};
    memcpy(bytes + 8, PING, sizeof PING);
    dxl_board_start(&board);
    struct dxl_board_step step = dxl_board_feed(&board, bytes, sizeof bytes);
    expect(step.kind == DXL_BAD_CHECKSUM && step.taken == sizeof bytes, "the damaged packet is not told");
    step = dxl_board_feed(&board, NOTHING, 0);
    expect(step.kind == DXL_PACKET && step.instruction == DXL_INST_PING && step.reply.speaks, "the Ping inside is not told");
    expect(dxl_board_feed(&board, NOTHING, 0).kind == DXL_NO_EVENT, "there is a third event");
}

/* What is measured between the calls is read by the next one. [B12] */
static void test_measured(void)
{
    const uint8_t read[] = {DXL_REG_PRESENT_POSITION, 0, 4, 0};
    const uint8_t wanted[] = {0xFF, 0xFF, 0xFD, 0x00, 0x01, 0x08, 0x00, 0x55, 0x00, 0xA6, 0x00, 0x00, 0x00, 0x8C, 0xC0};
    dxl_board_start(&board);
    expect(dxl_board_feed(&board, PING, 5).kind == DXL_NO_EVENT, "half a Ping is an event");
    dxl_measure(board.table, sizeof board.table, 166, 0);
    expect(dxl_board_feed(&board, PING + 5, sizeof PING - 5).kind == DXL_PACKET, "a measurement takes held bytes away");
    struct dxl_board_step step = say(1, DXL_INST_READ, read, sizeof read);
    expect(is_status(step.reply, wanted, sizeof wanted), "Read does not answer what was measured");
}

/* The body is without its stuffing, and nothing but a packet changes the buffer. [B7] */
static void test_packet_buffer(void)
{
    const uint8_t offset[] = {DXL_REG_HOMING_OFFSET, 0, 0xFF, 0xFF, 0xFD, 0xFF}; /* -131073 */
    static uint8_t noise[1025 + sizeof PING], old[DXL_MAX_PACKET];
    dxl_board_start(&board);
    struct dxl_board_step step = say(1, DXL_INST_WRITE, offset, sizeof offset);
    expect(step.count == 17 && board.packet[4] == 1 && board.packet[5] == 0x0A && board.packet[7] == DXL_INST_WRITE, "the front");
    expect(memcmp(board.packet + 8, offset, sizeof offset) == 0, "the buffer does not have the body without stuffing");
    expect(memcmp(board.table + DXL_REG_HOMING_OFFSET, offset + 2, 4) == 0, "the Write is not carried out");

    memset(old, OLD, sizeof old);
    memcpy(board.packet, old, sizeof old);
    dxl_board_feed(&board, DAMAGED_PING, sizeof DAMAGED_PING);
    dxl_board_gap(&board);
    expect(memcmp(board.packet, old, sizeof old) == 0, "what is no packet changes the buffer");
    dxl_board_feed(&board, PING, sizeof PING);
    expect(memcmp(board.packet, PING, sizeof PING) == 0 && board.packet[10] == OLD, "a Ping is not at the buffer's start alone");
    memcpy(noise + 1025, PING, sizeof PING);
    step = dxl_board_feed(&board, noise, sizeof noise);
    expect(step.kind == DXL_PACKET && board.packet[9] == 0x4E && board.packet[10] == 0, "behind much noise the rest is not 0");
}

/* Parts that are kept apart. Held bytes further on than those that were held and taken stay. [B6] */
static void test_parts(void)
{
    static uint8_t held[DXL_MAX_HELD], packet[DXL_MAX_PACKET], table[DXL_TABLE_BYTES];
    static const struct dxl_registered none;
    size_t count = 0;
    memset(held, OLD, sizeof held);
    dxl_fresh(table, sizeof table);
    struct dxl_board_step step = dxl_board_feed_parts(held, &count, PING, 4, packet, table, none);
    expect(step.kind == DXL_NO_EVENT && step.taken == 4 && count == 4, "the beginning of a Ping is not held");
    expect(memcmp(held, PING, 4) == 0 && held[4] == OLD, "bytes further on are not as they were");
    step = dxl_board_feed_parts(held, &count, PING + 4, sizeof PING - 4, packet, table, step.registered);
    expect(step.kind == DXL_PACKET && count == 0 && held[0] == 0 && held[9] == 0 && held[10] == OLD, "what is left of a Ping");
    expect(dxl_board_gap_parts(held, &count, packet, table, step.registered).kind == DXL_NO_EVENT, "a gap without held bytes");
}

static int same_registered(struct dxl_registered a, struct dxl_registered b)
{
    return a.address == b.address && a.count == b.count && memcmp(a.bytes, b.bytes, 8) == 0 && a.min == b.min && a.max == b.max;
}

/* A refused call: its number is the kind, all else of the step is 0, and no byte of the board has changed. */
static void expect_refused(uint8_t number, const char *what)
{
    static struct dxl_board before;
    static const struct dxl_reply silence;
    memcpy(&before, &board, sizeof before);
    for (int gap = 0; gap < 2; gap++) {
        struct dxl_board_step step = gap ? dxl_board_gap(&board) : dxl_board_feed(&board, PING, sizeof PING);
        expect(step.kind == number, what);
        expect(step.taken == 0 && step.count == 0 && step.id == 0, "a refusal tells of bytes");
        expect(step.instruction == 0 && step.error == 0, "a refusal tells of an instruction");
        expect(memcmp(&step.reply, &silence, offsetof(struct dxl_reply, bytes) + 8) == 0 && step.reply.slot == 0, "it is answered");
        expect(same_registered(step.registered, before.registered), "it is told with another registered write");
        expect(memcmp(&board, &before, offsetof(struct dxl_board, registered)) == 0, "a refusal changes the board");
        expect(same_registered(board.registered, before.registered), "a refusal changes the registered write");
    }
}

/* 25, then 22, then 23. [B2] */
static void test_refusals(void)
{
    const uint8_t goal[] = {DXL_REG_GOAL_POSITION, 0, 0, 2, 0, 0};
    dxl_board_start(&board);
    say(1, DXL_INST_REG_WRITE, goal, sizeof goal);
    dxl_board_feed(&board, PING, 5);
    board.count = DXL_MAX_HELD + 1;
    board.table[DXL_REG_ID] = 253;
    board.registered.count = 9;
    expect_refused(DXL_BAD_READER, "1,031 held bytes are accepted");
    board.count = 5;
    expect_refused(DXL_BAD_TABLE_ID, "an ID of 253 is accepted");
    board.table[DXL_REG_ID] = 1;
    expect_refused(DXL_BAD_REGISTERED, "a registered write of nine bytes is accepted");
    board.registered.count = 4;
    struct dxl_board_step step = dxl_board_feed(&board, PING + 5, sizeof PING - 5);
    expect(step.kind == DXL_PACKET && step.reply.speaks, "the board does not go on where it was");
}

int main(void)
{
    test_start();
    test_all_zero();
    for (size_t chunk = 1; chunk <= sizeof DAMAGED_PING + sizeof WRITE_512; chunk++)
        test_life(chunk);
    test_registered();
    test_told();
    test_gap();
    test_feed_again();
    test_measured();
    test_packet_buffer();
    test_parts();
    test_refusals();
    if (failures != 0)
        return 1;
    printf("board: the calls on a board from C\n");
    return 0;
}
