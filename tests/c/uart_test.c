/*
 * Runs examples/uart_board.c on a simulated UART: a line with its speed, a ring buffer that a DMA fills, the two interrupts, the
 * echo of what the board sends, and a clock. Time is simulated, so that a busy machine changes nothing.
 */
#define _POSIX_C_SOURCE 200809L
#include <setjmp.h>
#include <stdio.h>
#include <stdlib.h>
#include <string.h>
#include <unistd.h>

#include "mednukals.h"
#include "uart_board.h"

enum { MOST = 4096, NANOS = 1000 };

/* ---- the line: bytes on their way, from the master or as the board's echo, in the order of their times ---- */

static struct {
    int64_t time; /* when its stop bit is over, in nanoseconds */
    uint8_t byte;
} line[MOST];
static size_t n_line, delivered;

static int64_t now;                     /* nanoseconds */
static int64_t last_byte, idle_due, sent_due; /* -1: none */
static int64_t busy_until;              /* the master's last byte */
static uint32_t speed, received;
static int echo_broken;                 /* the echo comes back damaged */

volatile uint8_t uart_ring[UART_RING];

/* ---- what the board did ---- */

static uint8_t sent[MOST];
static size_t n_sent;
static int64_t sent_at; /* when it began to send last, and with which speed */
static uint32_t sent_with;
static char motor[256]; /* what the motor was told, in order */
static int fault;
static int32_t position;
static uint8_t store[STORE_BYTES];
static unsigned stores;
static jmp_buf faulted;

static unsigned failures, tests;
static const char *current;

static void expect(int holds, const char *what)
{
    if (!holds) {
        fprintf(stderr, "uart: %s: %s\n", current, what);
        failures++;
    }
}

static int64_t byte_time(void)
{
    return (int64_t)10 * 1000000 * NANOS / speed;
}

static void put(int64_t time, uint8_t byte)
{
    if (n_line == MOST) {
        expect(0, "the simulated line is too short");
        return;
    }
    size_t at = n_line++;
    for (; at > delivered && line[at - 1].time > time; at--)
        line[at] = line[at - 1];
    line[at].time = time;
    line[at].byte = byte;
}

/* ---- the hardware ---- */

uint32_t uart_received(void)
{
    return received;
}

void uart_send(const uint8_t *bytes, size_t n)
{
    sent_at = now;
    sent_with = speed;
    for (size_t i = 0; i < n; i++) {
        if (n_sent < MOST)
            sent[n_sent++] = bytes[i];
        put(now + (int64_t)(i + 1) * byte_time(), echo_broken && i == n - 1 ? bytes[i] ^ 1 : bytes[i]);
    }
    sent_due = now + (int64_t)n * byte_time();
}

void uart_set_baud(uint32_t baud)
{
    speed = baud;
}

uint32_t clock_micros(void)
{
    return (uint32_t)(now / NANOS);
}

int32_t motor_position(void)
{
    return position;
}

uint8_t motor_errors(void)
{
    return 0;
}

static void tell_motor(const char *what, int number)
{
    size_t at = strlen(motor);
    snprintf(motor + at, sizeof motor - at, "%s%s %d", at > 0 ? ", " : "", what, number);
}

void motor_set_torque(int on)
{
    tell_motor("torque", on);
}

void motor_set_goal(int32_t to)
{
    tell_motor("goal", (int)to);
}

void store_read(uint8_t bytes[STORE_BYTES])
{
    memcpy(bytes, store, STORE_BYTES);
}

void store_write(const uint8_t bytes[STORE_BYTES])
{
    memcpy(store, bytes, STORE_BYTES);
    stores++;
}

void board_fault(int refusal)
{
    fault = refusal;
    longjmp(faulted, 1);
}

/* ---- time ---- */

static void deliver(void)
{
    now = line[delivered].time;
    uart_ring[received % UART_RING] = line[delivered].byte;
    received++;
    delivered++;
    last_byte = now;
    idle_due = now + byte_time();
}

/* Whatever comes first, up to a time: a byte, the end of sending, an idle line. */
static void pass_until(int64_t time)
{
    for (;;) {
        int64_t byte = delivered < n_line ? line[delivered].time : INT64_MAX;
        int64_t sent_end = sent_due >= 0 ? sent_due : INT64_MAX;
        int64_t idle = idle_due >= 0 ? idle_due : INT64_MAX;
        if (byte <= time && byte <= sent_end && byte <= idle) {
            deliver();
        } else if (sent_end <= time && sent_end <= idle) {
            now = sent_end;
            sent_due = -1;
            board_sent();
        } else if (idle <= time) {
            now = idle;
            idle_due = -1;
            board_line_idle();
        } else {
            now = time;
            return;
        }
    }
}

/* The board's loop for so many microseconds, a turn each period. */
static void run(int64_t micros, int64_t period)
{
    int64_t end = now + micros * NANOS;
    while (now < end) {
        pass_until(now + period * NANOS);
        board_poll();
    }
}

/* The master sends as soon as what it sent before is over. */
static void say(const uint8_t *bytes, size_t n)
{
    int64_t from = busy_until > now ? busy_until : now;
    for (size_t i = 0; i < n; i++)
        put(from + (int64_t)(i + 1) * byte_time(), bytes[i]);
    busy_until = from + (int64_t)n * byte_time();
}

static void instruct(uint8_t id, uint8_t instruction, const uint8_t *params, size_t n)
{
    uint8_t out[DXL_MAX_PACKET];
    int64_t count = dxl_encode(id, instruction, params, n, out, sizeof out, 0);
    expect(count > 0, "the master's packet is refused");
    say(out, (size_t)count);
}

static void write_byte(uint8_t id, uint8_t address, uint8_t value)
{
    const uint8_t params[] = {address, 0, value};
    instruct(id, DXL_INST_WRITE, params, sizeof params);
}

/* The statuses that the board has to have sent, and no other byte. */
static uint8_t wanted[MOST];
static size_t n_wanted;

static void want_status(uint8_t id, uint8_t error, const uint8_t *data, size_t n)
{
    uint8_t params[16] = {error};
    memcpy(params + 1, data, n);
    int64_t count = dxl_encode(id, DXL_INST_STATUS, params, n + 1, wanted, sizeof wanted, n_wanted);
    expect(count > 0, "the wanted status is refused");
    n_wanted += (size_t)count;
}

static void expect_sent(void)
{
    expect(n_sent == n_wanted && memcmp(sent, wanted, n_sent) == 0, "what was sent is not what is wanted");
    n_sent = n_wanted = 0;
}

static void expect_status(uint8_t id, uint8_t error, const uint8_t *data, size_t n)
{
    want_status(id, error, data, n);
    expect_sent();
}

static void expect_motor(const char *told)
{
    if (strcmp(motor, told) != 0)
        fprintf(stderr, "uart: the motor was told '%s', and not '%s'\n", motor, told);
    expect(strcmp(motor, told) == 0, "what the motor was told");
    motor[0] = '\0';
}

static const uint8_t FRESH_PING[] = {0x06, 0x04, 0x26}; /* model number and firmware version */
static const uint8_t NOTHING[] = {0};

static void expect_ping_answer(uint8_t id)
{
    expect_status(id, 0, FRESH_PING, sizeof FRESH_PING);
}

static void power_up(const char *name)
{
    current = name;
    tests++;
    n_line = delivered = 0;
    n_sent = 0;
    idle_due = sent_due = -1;
    busy_until = now;
    echo_broken = fault = 0;
    motor[0] = '\0';
    board_start();
}

static void forget_store(void)
{
    memset(store, 0xFF, sizeof store);
    stores = 0;
}

/* ---- tests ---- */

static void test_ping(int64_t period)
{
    power_up("Ping");
    expect_motor("torque 0, goal 0");
    instruct(1, DXL_INST_PING, NOTHING, 0);
    run(20000, period);
    expect_ping_answer(1);
    instruct(2, DXL_INST_PING, NOTHING, 0);
    run(20000, period);
    expect(n_sent == 0, "what is sent to another device is answered");
}

static void test_gap(void)
{
    const uint8_t promise[] = {0xFF, 0xFF, 0xFD, 0x00, 0x07, 0x00, 0x04};
    power_up("a Ping behind noise that promises more");
    say(promise, sizeof promise);
    instruct(1, DXL_INST_PING, NOTHING, 0);
    run(20000, 100);
    expect_ping_answer(1);
    expect(sent_at - busy_until > 1500 * NANOS, "the gap is told too early");
    expect(sent_at - busy_until < 2500 * NANOS, "the gap is told late");
}

static const uint8_t READ_ID[] = {DXL_REG_ID, 0, 1, 0}, ONE[] = {1};

/* Statuses that are due go out in order, though their master has not waited. */
static void test_in_order(void)
{
    const uint8_t promise[] = {0xFF, 0xFF, 0xFD, 0x00, 0x07, 0x00, 0x04}, zeros[60] = {0};
    power_up("two packets that come out at the gap");
    say(promise, sizeof promise);
    instruct(1, DXL_INST_PING, NOTHING, 0);
    instruct(1, DXL_INST_READ, READ_ID, sizeof READ_ID);
    run(30000, 100);
    want_status(1, 0, FRESH_PING, sizeof FRESH_PING);
    expect_status(1, 0, ONE, 1);

    power_up("a packet inside a damaged one");
    const uint8_t damaged[] = {0xFF, 0xFF, 0xFD, 0x00, 0x01, 0x0D, 0x00, 0x03};
    say(damaged, sizeof damaged);
    instruct(1, DXL_INST_PING, NOTHING, 0);
    say(zeros, 2);
    run(20000, 100);
    want_status(1, DXL_ERROR_CHECKSUM, NOTHING, 0);
    expect_ping_answer(1);
    expect(sent_at - busy_until < 1500 * NANOS, "the event that is left in the held bytes waits for the gap");

    power_up("more than one chunk for a turn of the loop");
    instruct(1, DXL_INST_PING, NOTHING, 0);
    say(zeros, sizeof zeros);
    instruct(1, DXL_INST_READ, READ_ID, sizeof READ_ID);
    pass_until(busy_until + 200 * NANOS);
    run(20000, 100);
    want_status(1, 0, FRESH_PING, sizeof FRESH_PING);
    expect_status(1, 0, ONE, 1);
}

/* However fast the loop is, the board does not speak into what the master sends. */
static void test_idle_line(void)
{
    const uint8_t damaged[] = {0xFF, 0xFF, 0xFD, 0x00, 0x01, 0x03, 0x00, 0x01, 0x19, 0x4F};
    power_up("a damaged Ping, and a good one right behind it");
    say(damaged, sizeof damaged);
    instruct(1, DXL_INST_PING, NOTHING, 0);
    run(20000, 20);
    want_status(1, DXL_ERROR_CHECKSUM, NOTHING, 0);
    expect_ping_answer(1);
    expect(sent_at - busy_until >= byte_time(), "the line is not idle yet");
}

/* More statuses than there is room for: the newest are sent. */
static void test_many(void)
{
    const uint8_t promise[] = {0xFF, 0xFF, 0xFD, 0x00, 0x07, 0x00, 0x04};
    power_up("more replies than there is room for");
    say(promise, sizeof promise);
    for (int i = 0; i < 50; i++)
        instruct(1, DXL_INST_PING, NOTHING, 0);
    instruct(1, DXL_INST_READ, READ_ID, sizeof READ_ID);
    run((busy_until - now) / NANOS + 50000, 100);
    size_t pings = n_sent / 14; /* bytes of each */
    expect(pings > 0 && pings < 50, "the board has sent as much as was asked of it, or nothing");
    for (size_t i = 0; i < pings; i++)
        want_status(1, 0, FRESH_PING, sizeof FRESH_PING);
    expect_status(1, 0, ONE, 1);
}

/* The loop stands still for longer than the gap while the bytes of one packet come: that is no gap. */
static void test_late_loop(void)
{
    uint8_t ping[16];
    int64_t n = dxl_encode(1, DXL_INST_PING, NOTHING, 0, ping, sizeof ping, 0);
    power_up("a late loop");
    say(ping, 5);
    pass_until(busy_until + 200 * NANOS);
    board_poll();
    say(ping + 5, (size_t)n - 5);
    pass_until(now + 5000 * NANOS);
    run(5000, 100);
    expect_ping_answer(1);
}

/* A Sync Read in which the board's entry is the third. */
static const uint8_t THIRD[] = {DXL_REG_ID, 0, 1, 0, 7, 9, 1};

static void test_slots(void)
{
    const uint8_t seven[] = {7}, nine[] = {9};
    power_up("slots");
    instruct(DXL_BROADCAST_ID, DXL_INST_PING, NOTHING, 0);
    int64_t end = busy_until;
    run(30000, 100);
    expect_ping_answer(1);
    expect(sent_at - end >= 6000 * NANOS && sent_at - end < 7000 * NANOS, "Ping to all: not in slot 1");

    instruct(DXL_BROADCAST_ID, DXL_INST_SYNC_READ, THIRD, sizeof THIRD);
    end = busy_until;
    run((end - now) / NANOS + 1000, 100);
    uint8_t other[16];
    const uint8_t *data[] = {seven, nine};
    for (int i = 0; i < 2; i++) { /* two others answer first */
        const uint8_t params[] = {0, *data[i]};
        int64_t n = dxl_encode(*data[i], DXL_INST_STATUS, params, 2, other, sizeof other, 0);
        say(other, (size_t)n);
        run(6000, 100);
    }
    run(10000, 100);
    expect_status(1, 0, ONE, 1);
    expect(sent_at - end >= 13000 * NANOS && sent_at - end < 15000 * NANOS, "Sync Read: not in slot 2");
}

/* A status that waits for a later slot gives way to what the master says next. */
static void test_gives_way(void)
{
    power_up("a newer reply");
    instruct(DXL_BROADCAST_ID, DXL_INST_SYNC_READ, THIRD, sizeof THIRD);
    instruct(1, DXL_INST_PING, NOTHING, 0);
    run(40000, 100);
    expect_ping_answer(1);

    power_up("a newer instruction to another device");
    instruct(DXL_BROADCAST_ID, DXL_INST_SYNC_READ, THIRD, sizeof THIRD);
    run(8000, 100);
    instruct(7, DXL_INST_PING, NOTHING, 0);
    run(40000, 100);
    expect_sent();

    power_up("a damaged packet of another device");
    instruct(DXL_BROADCAST_ID, DXL_INST_SYNC_READ, THIRD, sizeof THIRD);
    say((const uint8_t *)"\xFF\xFF\xFD\x00\x07\x03\x00\x01\x19\x4F", 10);
    run(40000, 100);
    expect_status(1, 0, ONE, 1);
}

static void test_echo(void)
{
    power_up("the own echo");
    echo_broken = 1; /* a wrong checksum with the own ID: an error 03, if it were heard */
    instruct(1, DXL_INST_PING, NOTHING, 0);
    run(20000, 100);
    expect_ping_answer(1);
    echo_broken = 0;

    /* The next packet follows the status at once, before the loop has its next turn. */
    instruct(1, DXL_INST_PING, NOTHING, 0);
    while (sent_due < 0 && failures == 0)
        run(100, 100);
    busy_until = sent_due;
    n_sent = 0;
    instruct(1, DXL_INST_PING, NOTHING, 0);
    pass_until(busy_until + 300 * NANOS);
    run(20000, 100);
    expect_ping_answer(1);
}

static void test_ring(void)
{
    uint8_t lamp[] = {DXL_REG_LAMP, 0, 0};
    power_up("more bytes than the ring has");
    for (int i = 0; i < 40; i++) { /* each is 13 bytes; nobody answers */
        lamp[2] = (uint8_t)(i % 2);
        instruct(DXL_BROADCAST_ID, DXL_INST_WRITE, lamp, sizeof lamp);
    }
    run((busy_until - now) / NANOS + 5000, 500);
    const uint8_t read[] = {DXL_REG_LAMP, 0, 1, 0}, one[] = {1};
    instruct(1, DXL_INST_READ, read, sizeof read);
    run(20000, 500);
    expect_status(1, 0, one, 1);
}

static void test_overrun(void)
{
    const uint8_t promise[] = {0xFF, 0xFF, 0xFD, 0x00, 0x07, 0x00, 0x04}, zeros[300] = {0};
    power_up("bytes that were held when others are lost");
    say(promise, sizeof promise);
    instruct(1, DXL_INST_PING, NOTHING, 0);
    run((busy_until - now) / NANOS + 200, 100);
    say(zeros, sizeof zeros);
    pass_until(busy_until + 200 * NANOS);
    board_poll();
    expect_ping_answer(1);

    power_up("a loop so late that bytes are lost");
    for (int i = 0; i < 30; i++)
        instruct(1, DXL_INST_PING, NOTHING, 0);
    pass_until(busy_until + 200 * NANOS);
    run(5000, 100);
    expect(n_sent == 0, "bytes that were overwritten are answered");
    instruct(1, DXL_INST_PING, NOTHING, 0);
    run(20000, 100);
    expect_ping_answer(1);
}

/* An instruction to the board that is carried out, and what the motor is told by then. */
static void done(uint8_t instruction, const uint8_t *params, size_t n, const char *told)
{
    instruct(1, instruction, params, n);
    run(20000, 100);
    expect_status(1, 0, NOTHING, 0);
    expect_motor(told);
}

static const uint8_t TORQUE_ON[] = {DXL_REG_TORQUE_ENABLE, 0, 1}, TORQUE_OFF[] = {DXL_REG_TORQUE_ENABLE, 0, 0};
static const uint8_t GOAL_512[] = {DXL_REG_GOAL_POSITION, 0, 0x00, 0x02, 0, 0};
static const uint8_t GOAL_256[] = {DXL_REG_GOAL_POSITION, 0, 0x00, 0x01, 0, 0};

static void test_changes(void)
{
    power_up("torque, goal, registered write");
    forget_store();
    expect_motor("torque 0, goal 0");
    done(DXL_INST_WRITE, GOAL_512, sizeof GOAL_512, "goal 512");
    done(DXL_INST_WRITE, TORQUE_ON, sizeof TORQUE_ON, "torque 1");
    done(DXL_INST_REG_WRITE, GOAL_256, sizeof GOAL_256, "");
    done(DXL_INST_ACTION, NOTHING, 0, "goal 256");
    done(DXL_INST_WRITE, GOAL_256, sizeof GOAL_256, "");
    position = -1;
    const uint8_t read[] = {DXL_REG_PRESENT_POSITION, 0, 4, 0}, minus_one[] = {0xFF, 0xFF, 0xFF, 0xFF};
    instruct(1, DXL_INST_READ, read, sizeof read);
    run(20000, 100);
    expect_status(1, 0, minus_one, sizeof minus_one);
    position = 0;
    done(DXL_INST_WRITE, TORQUE_OFF, sizeof TORQUE_OFF, "torque 0");
    expect(stores == 0, "what is in RAM is stored");
}

/* The goal moves to the min position too, and the motor must not start towards it. */
static void test_let_go_first(void)
{
    const uint8_t all_but_id[] = {0x01};
    power_up("Reboot and Factory Reset under torque");
    expect_motor("torque 0, goal 0");
    for (int i = 0; i < 2; i++) {
        done(DXL_INST_WRITE, GOAL_512, sizeof GOAL_512, "goal 512");
        done(DXL_INST_WRITE, TORQUE_ON, sizeof TORQUE_ON, "torque 1");
        if (i == 0)
            done(DXL_INST_REBOOT, NOTHING, 0, "torque 0, goal 0");
        else
            done(DXL_INST_FACTORY_RESET, all_but_id, sizeof all_but_id, "torque 0, goal 0");
    }
}

static void test_rom(void)
{
    const uint8_t limits[] = {DXL_REG_MAX_POSITION, 0, 0xE8, 0x03, 0, 0, 100, 0, 0, 0};
    forget_store();
    power_up("ROM over a power cut");
    write_byte(1, DXL_REG_ID, 9);
    run(20000, 100);
    expect_status(1, 0, NOTHING, 0); /* under the ID from before */
    instruct(9, DXL_INST_WRITE, limits, sizeof limits);
    run(20000, 100);
    expect_status(9, DXL_ERROR_DATA_LIMIT, NOTHING, 0); /* the goal is 0, below the new min position */
    instruct(9, DXL_INST_WRITE, GOAL_256, sizeof GOAL_256);
    run(20000, 100);
    expect_status(9, 0, NOTHING, 0);
    instruct(9, DXL_INST_WRITE, limits, sizeof limits);
    run(20000, 100);
    expect_status(9, 0, NOTHING, 0);
    expect(stores == 2, "ROM is not stored at each change");

    power_up("ROM after a power cut");
    expect_motor("torque 0, goal 100");
    instruct(9, DXL_INST_PING, NOTHING, 0);
    run(20000, 100);
    expect_ping_answer(9);
}

/* ---- stores ---- */

/* The writable ROM registers. */
struct rom {
    uint8_t id, code;
    int32_t offset, max, min;
};

static const struct rom FRESH = {DXL_FRESH_ID, DXL_FRESH_BAUD_CODE, DXL_FRESH_HOMING_OFFSET, DXL_FRESH_MAX_POSITION,
                                 DXL_FRESH_MIN_POSITION};
static const struct rom OLD = {9, 3, -131073, 1000, 100}, NEW = {17, 2, 70000, 900, 300};

static void put_number(uint8_t *bytes, int32_t number)
{
    for (int i = 0; i < 4; i++)
        bytes[i] = (uint8_t)((uint32_t)number >> 8 * i);
}

/* The store of these values, with its checksum from a start. */
static void make_store(uint8_t bytes[STORE_BYTES], const struct rom *rom, uint16_t start)
{
    bytes[0] = rom->id;
    bytes[1] = rom->code;
    put_number(bytes + 2, rom->offset);
    put_number(bytes + 6, rom->max);
    put_number(bytes + 10, rom->min);
    uint16_t sum = dxl_crc16(start, bytes, 14);
    bytes[14] = sum & 0xFF;
    bytes[15] = (uint8_t)(sum >> 8);
}

static void expect_read(uint8_t id, uint8_t address, const uint8_t *data, uint8_t n)
{
    const uint8_t read[] = {address, 0, n, 0};
    instruct(id, DXL_INST_READ, read, sizeof read);
    run(40000, 500);
    expect_status(id, 0, data, n);
}

/* The board comes up with these values. */
static void expect_rom(const char *name, const struct rom *rom)
{
    uint8_t two[] = {rom->id, rom->code}, offset[4], limits[8];
    put_number(offset, rom->offset);
    put_number(limits, rom->max);
    put_number(limits + 4, rom->min);
    power_up(name);
    expect_read(rom->id, DXL_REG_ID, two, sizeof two);
    expect_read(rom->id, DXL_REG_HOMING_OFFSET, offset, sizeof offset);
    expect_read(rom->id, DXL_REG_MAX_POSITION, limits, sizeof limits);
    expect_read(rom->id, DXL_REG_GOAL_POSITION, limits + 4, 4);
}

static void test_stores(void)
{
    memset(store, 0x00, sizeof store);
    expect_rom("a store of 00", &FRESH);
    memset(store, 0xFF, sizeof store);
    expect_rom("a store of FF", &FRESH);
    make_store(store, &OLD, 0xFFFF);
    expect_rom("a good store", &OLD);
    for (size_t bit = 0; bit < 8 * sizeof store; bit++) {
        make_store(store, &OLD, 0xFFFF);
        store[bit / 8] ^= (uint8_t)(1 << bit % 8);
        expect_rom("a store with a flipped bit", &FRESH);
    }
}

/* The power fails while a store is written: its first bytes are there, and those behind are what was there before. */
static void test_cut_stores(void)
{
    uint8_t under[3][STORE_BYTES], over[STORE_BYTES];
    memset(under[0], 0x00, STORE_BYTES);
    memset(under[1], 0xFF, STORE_BYTES);
    make_store(under[2], &OLD, 0xFFFF);
    make_store(over, &NEW, 0xFFFF);
    for (size_t i = 0; i < 3 * (STORE_BYTES + 1); i++) {
        size_t cut = i / 3;
        memcpy(store, over, cut);
        memcpy(store + cut, under[i % 3] + cut, STORE_BYTES - cut);
        int is_new = memcmp(store, over, STORE_BYTES) == 0, is_old = memcmp(store, under[2], STORE_BYTES) == 0;
        expect_rom("a cut store", is_new ? &NEW : is_old ? &OLD : &FRESH);
    }
}

/* With a right checksum. */
static void test_ranges(void)
{
    static const struct rom good[] = {{0, 0, -1044479, 0, 0}, {252, 7, 1044479, 4095, 4095}, {1, 1, 0, 4095, 4095}};
    static const struct rom bad[] = {{253, 1, 0, 4095, 0},      {255, 1, 0, 4095, 0},       {1, 8, 0, 4095, 0},
                                     {1, 255, 0, 4095, 0},      {9, 3, -1044480, 4095, 0},  {9, 3, 1044480, 4095, 0},
                                     {9, 3, INT32_MIN, 4095, 0}, {9, 3, 5, 4096, 0},        {9, 3, 5, -1, -1},
                                     {9, 3, 5, 4095, -1},       {9, 3, 5, 4096, 4096},      {9, 3, 5, 99, 100},
                                     {9, 3, 5, 0, 4095}};
    for (size_t i = 0; i < sizeof good / sizeof good[0]; i++) {
        make_store(store, &good[i], 0xFFFF);
        expect_rom("values at the ends of their ranges", &good[i]);
    }
    for (size_t i = 0; i < sizeof bad / sizeof bad[0]; i++) {
        make_store(store, &bad[i], 0xFFFF);
        expect_rom("values outside their ranges", &FRESH);
    }
    make_store(store, &OLD, 0);
    expect_rom("a checksum from 0", &FRESH);
    forget_store();
}

static void test_baud(void)
{
    forget_store();
    power_up("a new speed");
    write_byte(1, DXL_REG_BAUD_CODE, 3);
    const uint8_t zeros[100] = {0};
    say(zeros, sizeof zeros); /* so that the status has to wait */
    pass_until(busy_until + 200 * NANOS);
    run(20000, 100);
    expect(sent_with == 57600, "the status does not leave with the old speed");
    expect_status(1, 0, NOTHING, 0);
    expect(speed == 1000000, "the speed does not change after the status");
    instruct(1, DXL_INST_PING, NOTHING, 0);
    run(20000, 20);
    expect_ping_answer(1);

    power_up("the new speed after a power cut");
    expect(speed == 1000000, "the speed is not brought back");
    forget_store();
}

/* A call refuses, by tests/c/refusing.c, at power-up or later. */
static void test_fault(const char *call, const char *number)
{
    make_store(store, &OLD, 0xFFFF);
    setenv("REFUSING", call, 1);
    setenv("REFUSAL", number, 1);
    if (setjmp(faulted) == 0) {
        power_up("a refusal");
        say(NOTHING, 1);
        say((const uint8_t *)"\xFF\xFF\xFD", 3); /* is held until the gap */
        run(20000, 100);
        instruct(9, DXL_INST_PING, NOTHING, 0);
        run(20000, 100);
    }
    expect(fault == atoi(number), call);
    unsetenv("REFUSING");
    forget_store();
}

/* Each refusal that a call of the board's loop has. [B2] */
static void test_faults(void)
{
    static const char *const refusals[][2] = {
        {"dxl_board_feed_parts", "25"}, {"dxl_board_feed_parts", "22"}, {"dxl_board_feed_parts", "23"},
        {"dxl_board_gap_parts", "25"},  {"dxl_board_gap_parts", "22"},  {"dxl_board_gap_parts", "23"},
        {"dxl_encode", "11"},           {"dxl_measure", "21"},          {"dxl_status", "24"}};
    for (size_t i = 0; i < sizeof refusals / sizeof refusals[0]; i++)
        test_fault(refusals[i][0], refusals[i][1]);
}

int main(void)
{
    alarm(60); /* a board that goes on for ever */
    speed = 57600;
    forget_store();
    test_ping(50);
    test_ping(1000);
    test_gap();
    test_in_order();
    test_idle_line();
    test_many();
    test_late_loop();
    test_slots();
    test_gives_way();
    test_echo();
    test_ring();
    test_overrun();
    test_changes();
    test_let_go_first();
    test_rom();
    test_stores();
    test_cut_stores();
    test_ranges();
    test_baud();
    test_faults();
    if (failures != 0)
        return 1;
    printf("uart: the board on a simulated UART, %u tests\n", tests);
    return 0;
}
