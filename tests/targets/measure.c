/*
 * Calls on fixed inputs, for tools/targets/measure.py: each stands between `begins` and `ends`, where the emulator counts
 * instructions. Prints the name of each. Compiled with other names for the calls it measures the plain C of tests/bench, and with
 * WORST_OF_EACH the worst call of each export too.
 */
#include "mednukals.h"
#include "port.h"
#include "targets.h"
#ifdef WORST_OF_EACH
#include "worst.h"
#endif

enum { BEFORE = 2100, NOISE = 704, CHUNK = 64, WORST = 1015, GOALS = 200 };

static const uint8_t PING[] = {0xFF, 0xFF, 0xFD, 0x00, 0x01, 0x03, 0x00, 0x01, 0x19, 0x4E};
static const uint8_t PROMISE[7] = {0xFF, 0xFF, 0xFD, 0x00, 0x01, 0x00, 0x04}; /* the longest packet: the worst noise is full of them */

static struct dxl_board board;
static struct dxl_reader reader;
static struct dxl_registered registered;
static uint8_t packet[DXL_MAX_PACKET], body[DXL_MAX_BODY], table[DXL_TABLE_BYTES], status[DXL_MIN_REPLY], line[BEFORE];
static size_t n_line;
static struct dxl_reply waiting;

/* ---- marks ---- */

__attribute__((noinline, noclone)) void begins(void);
void begins(void)
{
    __asm__ volatile("" ::: "memory");
}

__attribute__((noinline, noclone)) void ends(void);
void ends(void)
{
    __asm__ volatile("" ::: "memory");
}

/* ---- a board ---- */

static void hear(size_t chunk)
{
    for (size_t at = 0; at < n_line; at += chunk) {
        const uint8_t *bytes = line + at;
        size_t n = n_line - at < chunk ? n_line - at : chunk;
        struct dxl_board_step step = dxl_board_feed(&board, bytes, n);
        while (step.kind != DXL_NO_EVENT) {
            if (step.reply.speaks)
                dxl_status(step.reply, status, sizeof status);
            bytes += step.taken;
            n -= step.taken;
            step = dxl_board_feed(&board, bytes, n);
        }
    }
}

static void hear_bytes(void)
{
    hear(1);
}

static void hear_chunks(void)
{
    hear(CHUNK);
}

static void feed_once(void)
{
    dxl_board_feed(&board, line, n_line);
}

static void gap_once(void)
{
    dxl_board_gap(&board);
}

/* ---- single calls ---- */

static void answer_single(size_t chunk)
{
    for (size_t at = 0; at < n_line; at += chunk) {
        const uint8_t *bytes = line + at;
        size_t n = n_line - at < chunk ? n_line - at : chunk;
        struct dxl_step step = dxl_reader_feed(&reader, bytes, n, packet);
        while (step.kind != DXL_NO_EVENT) {
            struct dxl_answer answer = {0};
            if (step.kind == DXL_PACKET)
                answer = dxl_exchange(table, sizeof table, registered, packet, step.count, body, sizeof body, status, sizeof status);
            registered = answer.registered;
            bytes += step.taken;
            n -= step.taken;
            step = dxl_reader_feed(&reader, bytes, n, packet);
        }
    }
}

static void single_chunks(void)
{
    answer_single(CHUNK);
}

static void single_once(void)
{
    dxl_reader_feed(&reader, line, n_line, packet);
}

/* ---- what is heard ---- */

static void zeros(size_t n)
{
    for (size_t i = 0; i < n; i++)
        line[i] = 0;
    n_line = n;
}

static void fresh(void)
{
    dxl_board_start(&board);
    dxl_fresh(table, sizeof table);
    reader.count = 0;
    registered.count = 0;
}

static void one_zero(void)
{
    fresh();
    zeros(1);
}

static void zeros_64(void)
{
    fresh();
    zeros(CHUNK);
}

static void ping(void)
{
    fresh();
    for (n_line = 0; n_line < sizeof PING; n_line++)
        line[n_line] = PING[n_line];
}

static void sixth_of_ping(void)
{
    ping();
    dxl_board_feed(&board, line, 5);
    line[0] = PING[5];
    n_line = 1;
}

static void write_goal(void)
{
    static const uint8_t params[] = {DXL_REG_GOAL_POSITION, 0, 0, 2, 0, 0};
    fresh();
    n_line = (size_t)dxl_encode(1, DXL_INST_WRITE, params, sizeof params, line, sizeof line, 0);
}

static void sync_write(void)
{
    static uint8_t params[4 + GOALS * 5] = {DXL_REG_GOAL_POSITION, 0, 4, 0};
    fresh();
    for (size_t i = 0; i < GOALS; i++) {
        params[4 + i * 5] = (uint8_t)(GOALS - i);
        params[4 + i * 5 + 1] = 7;
    }
    n_line = (size_t)dxl_encode(DXL_BROADCAST_ID, DXL_INST_SYNC_WRITE, params, sizeof params, line, sizeof line, 0);
}

static void promises(size_t n)
{
    for (size_t i = 0; i < n; i++)
        line[i] = PROMISE[i % sizeof PROMISE];
    n_line = n;
}

/* In the midst of the worst noise: more of it was heard before than a record holds. */
static void noise(void)
{
    fresh();
    promises(BEFORE);
    hear(CHUNK);
    promises(NOISE);
}

static void single_noise(void)
{
    fresh();
    promises(BEFORE);
    answer_single(CHUNK);
    promises(NOISE);
}

/* 112 packets, each in the other: the checksum of each is right and its stuffing is not. One call judges them all. */
static void worst_call(void)
{
    enum { PACKETS = 112, FRONTS = 7 * (PACKETS + 1) };
    fresh();
    promises(FRONTS);
    line[FRONTS - 2] = line[FRONTS - 1] = 0;
    for (size_t i = 0; i < PACKETS; i++) {
        size_t length = FRONTS + 2 * (i + 1) - 7 * (i + 1);
        line[7 * i + 5] = (uint8_t)length;
        line[7 * i + 6] = (uint8_t)(length >> 8);
    }
    for (size_t i = 0; i < PACKETS; i++) {
        size_t end = FRONTS + 2 * i;
        uint16_t sum = dxl_crc16(0, line + 7 * i, end - 7 * i);
        line[end] = (uint8_t)sum;
        line[end + 1] = (uint8_t)(sum >> 8);
    }
    n_line = WORST;
}

static void heard_ping(void)
{
    ping();
    waiting = dxl_board_feed(&board, line, n_line).reply;
}

/* ---- other calls ---- */

static void nothing(void)
{
}

static void status_once(void)
{
    dxl_status(waiting, status, sizeof status);
}

static void measure_once(void)
{
    dxl_measure(board.table, sizeof board.table, 5, 0);
}

static void encode_14(void)
{
    static const uint8_t params[] = {0x00, 0x06, 0x04, 0x26};
    dxl_encode(1, DXL_INST_STATUS, params, sizeof params, body, sizeof body, 0);
}

static void crc_14(void)
{
    dxl_crc16(0, line, 14);
}

static void crc_1022(void)
{
    dxl_crc16(0, line, 1022);
}

static const struct {
    const char *name;
    void (*prepare)(void), (*call)(void);
} CASES[] = {{"nothing", nothing, nothing},
             {"one byte 00, nothing held", one_zero, feed_once},
             {"one byte of a Ping, 5 held", sixth_of_ping, feed_once},
             {"64 bytes 00", zeros_64, feed_once},
             {"Ping, fed and answered", ping, hear_chunks},
             {"Ping, byte by byte and answered", ping, hear_bytes},
             {"Write of a goal, fed and answered", write_goal, hear_chunks},
             {"Sync Write of 200 goals, in chunks of 64", sync_write, hear_chunks},
             {"worst noise, a byte, in chunks of 64", noise, hear_chunks},
             {"worst single call", worst_call, feed_once},
             {"gap, nothing held", fresh, gap_once},
             {"single calls: one byte 00", one_zero, single_once},
             {"single calls: 64 bytes 00", zeros_64, single_once},
             {"single calls: Ping, fed and answered", ping, single_chunks},
             {"single calls: worst noise, a byte", single_noise, single_chunks},
             {"dxl_status of a Ping", heard_ping, status_once},
             {"dxl_measure", fresh, measure_once},
             {"dxl_encode, 14 bytes", fresh, encode_14},
             {"dxl_crc16, 14 bytes", fresh, crc_14},
             {"dxl_crc16, 1,022 bytes", fresh, crc_1022}};

void say(const char *text)
{
    for (; *text != '\0'; text++)
        port_put((uint8_t)*text);
}

void port_received(uint8_t byte)
{
    (void)byte;
}

void port_ticked(void)
{
}

int main(void)
{
    port_begin();
    __asm__ volatile("cpsid i"); /* no interrupt is counted */
    for (size_t i = 0; i < sizeof CASES / sizeof CASES[0]; i++) {
        void (*volatile call)(void) = CASES[i].call;
        CASES[i].prepare();
        begins();
        call();
        ends();
        say(CASES[i].name), say("\n");
    }
#ifdef WORST_OF_EACH
    for (size_t i = 0; i < WORST_CASES; i++) {
        int64_t (*volatile call)(void) = worst_cases[i].call;
        worst_cases[i].begin();
        begins();
        int64_t answer = call();
        ends();
        if (answer != worst_cases[i].answer)
            return 1;
        say(worst_cases[i].export), say(" worst: "), say(worst_cases[i].input), say("\n");
    }
#endif
    return 0;
}
