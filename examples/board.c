/*
 * A board: the main loop that firmware writes around the library. Its line is a pseudo-terminal, whose name it prints;
 * examples/talk.py is a master that talks to it. Firmware has its own line and clock in place of pty_line.c, and its own arm in
 * place of host.c.
 *
 * The library finds the packets, carries them out on the control table and writes the status packets. The rest is here: to notice
 * when the line was silent, to wait for a reply slot, to measure, and to act on a refusal.
 */
#include <errno.h>
#include <inttypes.h>
#include <stdio.h>
#include <stdlib.h>
#include <string.h>

#include "host.h"
#include "mednukals.h"
#include "pty_line.h"

/* Exit codes. */
enum { ENDED = 0, FAILED = 1, BAD_OPTION = 2, REFUSED = 3 };

/* The options; times are in microseconds. A slot holds the longest status, 21 bytes at 57,600 baud, and a gap. */
static int64_t gap = 1500, slot_time = 6000;
static int64_t seconds; /* 0: no end */
static int64_t own_id = 1;
static int tracing, self_test_only, help;

static struct dxl_board board; /* all that the library's calls keep */

static struct line line;
static int64_t last_byte; /* when bytes came last */

static struct dxl_reply waiting; /* for its slot; silence: none waits */
static int64_t waiting_until;

static int32_t position; /* of the arm */
static int64_t next_tick;

/* ---- faults ---- */

static void fail(const char *what)
{
    host_failed("board", what);
}

static const char *meaning(int64_t refusal)
{
    switch (refusal) {
    case DXL_BAD_ID: return "an ID that no packet or no status has";
    case DXL_TOO_LONG: return "the packet would be too long";
    case DXL_NO_ROOM: return "the output buffer has too little room";
    case DXL_NOT_A_TABLE: return "the control table is not 136 bytes long";
    case DXL_BAD_TABLE_ID: return "the control table's ID is above 252";
    case DXL_BAD_REGISTERED: return "the registered write's count is above 8";
    case DXL_SHORT_REPLY: return "the reply buffer has fewer than 32 bytes";
    case DXL_BAD_READER: return "the reader's count is above 1,030";
    default: return "a number that the header does not list";
    }
}

/*
 * Returns the result of a call that was not refused. Nothing that comes over the line gets a call refused here. A refusal means
 * that this program passed something unfit or that its memory was overwritten: a board would let go of the motor and start anew.
 */
static size_t accepted(const char *call, int64_t answer)
{
    if (answer < 0) {
        fprintf(stderr, "board: %s refuses with %" PRId64 ": %s\n", call, -answer, meaning(-answer));
        exit(REFUSED);
    }
    return (size_t)answer;
}

/* ---- tracing ---- */

static void print_bytes(FILE *file, const char *what, const uint8_t *bytes, size_t n)
{
    fprintf(file, "%s:", what);
    for (size_t i = 0; i < n; i++)
        fprintf(file, " %02X", bytes[i]);
    fprintf(file, "\n");
}

static void trace(const char *what, const uint8_t *bytes, size_t n)
{
    if (tracing)
        print_bytes(stderr, what, bytes, n);
}

/*
 * The trace shows packets as they were received, with their stuffing. The board's buffer has them without, so a reader beside it
 * hears the same bytes: it comes to the same event.
 */
static struct dxl_reader traced; /* all 0: a fresh one */
static uint8_t traced_packet[DXL_MAX_PACKET];

static void trace_event(const char *call, struct dxl_step step)
{
    accepted(call, step.kind == DXL_BAD_READER ? -(int64_t)DXL_BAD_READER : 0);
    if (step.kind == DXL_PACKET)
        trace("packet", traced_packet, step.count);
    if (step.kind == DXL_BAD_CHECKSUM)
        trace("bad checksum, ID", &step.id, 1);
}

static void trace_feed(const uint8_t *chunk, size_t n)
{
    if (tracing)
        trace_event("dxl_reader_feed", dxl_reader_feed(&traced, chunk, n, traced_packet));
}

static void trace_gap(void)
{
    if (tracing)
        trace_event("dxl_reader_gap", dxl_reader_gap(&traced, traced_packet));
}

/* ---- what goes out ---- */

static void send_waiting(void)
{
    uint8_t status[DXL_MIN_REPLY];
    size_t n = accepted("dxl_status", dxl_status(waiting, status, sizeof status));
    trace("sent", status, n);
    if (line_send(&line, status, n) != 0) {
        if (errno != EAGAIN)
            fail("writing to the line");
        fprintf(stderr, "board: a status is lost: nobody reads the line\n");
    }
    waiting.speaks = 0;
}

/*
 * The reply is sent when its slot comes; slot 0 is now. Slots are counted from the last byte heard: so boards keep in step, though
 * one hears a packet at its last byte and another, behind noise, only at the gap.
 */
static void send_in_slot(struct dxl_reply reply)
{
    waiting = reply;
    waiting_until = last_byte + (int64_t)reply.slot * slot_time;
    if (line_clock() >= waiting_until)
        send_waiting();
}

static void give_up_waiting(void)
{
    if (waiting.speaks && tracing)
        fputs("given up: the status that waited\n", stderr);
    waiting.speaks = 0;
}

/* ---- what comes in ---- */

/* What is above the kinds of events is a refusal. */
static int is_event(const char *call, struct dxl_board_step step)
{
    accepted(call, step.kind > DXL_BAD_CHECKSUM ? -(int64_t)step.kind : 0);
    return step.kind != DXL_NO_EVENT;
}

/* The master's packets are all but the statuses of other boards. */
static int is_instruction(struct dxl_board_step step)
{
    return step.kind == DXL_PACKET && board.packet[7] != DXL_INST_STATUS;
}

/* What waits gives way to a newer instruction, whichever device that is for, and to a newer reply: the master waits no more. */
static void answer(struct dxl_board_step step)
{
    if (step.reply.speaks || is_instruction(step))
        give_up_waiting();
    if (step.reply.speaks)
        send_in_slot(step.reply);
}

/* Feeds until a call gives no event, even if no byte is left: more events may lie in the held bytes. */
static void bytes_came(const uint8_t *chunk, size_t n)
{
    for (;;) {
        trace_feed(chunk, n);
        struct dxl_board_step step = dxl_board_feed(&board, chunk, n);
        if (!is_event("dxl_board_feed", step))
            return;
        chunk += step.taken;
        n -= step.taken;
        answer(step);
    }
}

static void line_was_silent(void)
{
    trace("gap, held", board.held, board.count);
    for (;;) {
        trace_gap();
        struct dxl_board_step step = dxl_board_gap(&board);
        if (!is_event("dxl_board_gap", step))
            return;
        answer(step);
    }
}

static void read_line(void)
{
    uint8_t chunk[256];
    int n = line_read(&line, chunk, sizeof chunk);
    if (n < 0)
        fail("reading from the line");
    if (n > 0)
        last_byte = line_clock();
    bytes_came(chunk, (size_t)n);
}

/* ---- the arm ---- */

/* Four bytes of the table, lowest first, as a signed number. */
static int32_t signed_at(size_t address)
{
    const uint8_t *b = board.table + address;
    uint32_t u = (uint32_t)b[0] | (uint32_t)b[1] << 8 | (uint32_t)b[2] << 16 | (uint32_t)b[3] << 24;
    return u <= INT32_MAX ? (int32_t)u : -(int32_t)(UINT32_MAX - u) - 1;
}

/* Stands in for motor and sensor: moves towards the goal while torque is on, and stores the position in the table. */
static void move_arm(void)
{
    if (board.table[DXL_REG_TORQUE_ENABLE] != 0)
        position = arm_towards(signed_at(DXL_REG_GOAL_POSITION), position);
    accepted("dxl_measure", dxl_measure(board.table, sizeof board.table, position, 0));
}

/* ---- the loop ---- */

/* When the segment ends, unless bytes come earlier. With no bytes held, a gap changes nothing. */
static int64_t gap_end(void)
{
    return board.count > 0 ? last_byte + gap : LINE_NEVER;
}

static int64_t earlier(int64_t a, int64_t b)
{
    return a < b ? a : b;
}

/*
 * A gap is reported only if the wait for it ended without a byte. The clock alone would not do: bytes may have come while this
 * program was kept from running. A signal that comes just before the wait is seen at the arm's next tick.
 */
static void run(int64_t end)
{
    while (!host_stopping && line_clock() < end) {
        int64_t slot = waiting.speaks ? waiting_until : LINE_NEVER;
        int64_t until = earlier(earlier(gap_end(), slot), earlier(next_tick, end));
        enum line_news news = line_wait(&line, until);
        if (news == LINE_BROKEN)
            fail("waiting for the line");
        if (news == LINE_BYTES)
            read_line();
        if (news == LINE_TIME && until == gap_end())
            line_was_silent();
        if (waiting.speaks && line_clock() >= waiting_until)
            send_waiting();
        if (line_clock() >= next_tick) {
            move_arm();
            next_tick = line_clock() + ARM_TICK;
        }
    }
}

/* ---- start ---- */

static void test_failed(const char *what)
{
    fprintf(stderr, "board: the self-test fails: %s\n", what);
    exit(FAILED);
}

static void expect_checksum(const uint8_t *bytes, size_t n)
{
    uint16_t sum = dxl_crc16(0, bytes, n - 2);
    if (bytes[n - 2] != (sum & 0xFF) || bytes[n - 1] != sum >> 8)
        test_failed("a packet's checksum is wrong");
}

/* Before the line is opened: a Ping to the own ID is encoded, read and answered, and both checksums are computed again. */
static void self_test(void)
{
    const uint8_t none[1] = {0};
    uint8_t ping[16], status[DXL_MIN_REPLY];
    size_t n = accepted("dxl_encode", dxl_encode(board.table[DXL_REG_ID], DXL_INST_PING, none, 0, ping, sizeof ping, 0));
    expect_checksum(ping, n);
    struct dxl_board_step step = dxl_board_feed(&board, ping, n);
    if (!is_event("dxl_board_feed", step) || step.count != n || memcmp(board.packet, ping, n) != 0)
        test_failed("the Ping is not read as it was encoded");
    size_t n_status = accepted("dxl_status", dxl_status(step.reply, status, sizeof status));
    if (n_status == 0)
        test_failed("the Ping is not answered");
    expect_checksum(status, n_status);
    if (self_test_only) {
        print_bytes(stdout, "Ping", ping, n);
        print_bytes(stdout, "status", status, n_status);
    }
}

static void open_line(void)
{
    const char *failed = line_open(&line);
    if (failed != NULL)
        fail(failed);
}

/* ---- options ---- */

static const char HELP[] =
    "board [--id ID] [--gap MICROSECONDS] [--slot MICROSECONDS] [--seconds N] [--trace]\n"
    "board --self-test [--id ID]\n"
    "board -h, board --help\n"
    "\n"
    "A DYNAMIXEL Protocol 2.0 device on a pseudo-terminal, and an arm that is simulated.\n"
    "It prints the pseudo-terminal's name, as 'line: PATH', and runs until SIGINT or SIGTERM.\n"
    "\n"
    "--id         the device's ID, 0 to 252 (1)\n"
    "--gap        a longer silence than this ends a segment (1500)\n"
    "--slot       how long a reply slot lasts (6000)\n"
    "--seconds    end after so many seconds\n"
    "--trace      print each packet, bad checksum, gap and status on standard error\n"
    "--self-test  encode, read and answer a Ping, print both packets and end\n"
    "A number may also follow '=': --id=7 is --id 7.\n"
    "\n"
    "Exit codes: 0 ended as asked, 1 the system or the self-test failed, 2 a bad option, 3 the library refused a call\n";

static const struct {
    const char *name;
    int64_t *value, least, most;
} NUMBERS[] = {{"--id", &own_id, 0, 252},
               {"--gap", &gap, 1, 10000000},
               {"--slot", &slot_time, 0, 10000000},
               {"--seconds", &seconds, 1, 86400}};

static const struct {
    const char *name;
    int *value;
} SWITCHES[] = {{"--trace", &tracing}, {"--self-test", &self_test_only}, {"-h", &help}, {"--help", &help}};

static void bad_option(const char *option, const char *what)
{
    fprintf(stderr, "board: '%s': %s (--help lists the options)\n", option, what);
    exit(BAD_OPTION);
}

/* Digits only, at most eight of them, so that nothing overflows. */
static int64_t number(const char *option, const char *text, int64_t least, int64_t most)
{
    size_t digits = text == NULL ? 0 : strspn(text, "0123456789");
    if (digits == 0 || digits > 8 || text[digits] != '\0')
        bad_option(option, "wants a number of at most eight digits");
    int64_t n = (int64_t)strtol(text, NULL, 10);
    if (n < least || n > most)
        bad_option(option, "the number is out of range");
    return n;
}

/* Whether a word is this option, alone or with '=' and a value behind it. */
static int is_option(const char *word, const char *name)
{
    size_t n = strlen(name);
    return strncmp(word, name, n) == 0 && (word[n] == '\0' || word[n] == '=');
}

/* How many words an option takes: 0 if it is none of these. */
static int take_switch(char **words)
{
    for (size_t i = 0; i < sizeof SWITCHES / sizeof SWITCHES[0]; i++) {
        if (is_option(words[0], SWITCHES[i].name)) {
            if (strchr(words[0], '=') != NULL)
                bad_option(words[0], "takes no value");
            *SWITCHES[i].value = 1;
            return 1;
        }
    }
    return 0;
}

static int take_number(char **words)
{
    for (size_t i = 0; i < sizeof NUMBERS / sizeof NUMBERS[0]; i++) {
        if (is_option(words[0], NUMBERS[i].name)) {
            const char *equals = strchr(words[0], '=');
            const char *text = equals != NULL ? equals + 1 : words[1];
            *NUMBERS[i].value = number(words[0], text, NUMBERS[i].least, NUMBERS[i].most);
            return equals != NULL ? 1 : 2;
        }
    }
    return 0;
}

static void take_options(char **words)
{
    while (*words != NULL) {
        int taken = take_switch(words);
        if (taken == 0)
            taken = take_number(words);
        if (taken == 0)
            bad_option(*words, "no such option");
        words += taken;
    }
    if (help) {
        fputs(HELP, stdout);
        exit(ENDED);
    }
}

int main(int argc, char **argv)
{
    setvbuf(stderr, NULL, _IOLBF, BUFSIZ); /* a line of the trace goes out in one write */
    if (argc > 0)
        take_options(argv + 1);
    dxl_board_start(&board);
    board.table[DXL_REG_ID] = (uint8_t)own_id; /* as firmware brings back what it keeps of ROM */
    self_test();
    if (self_test_only)
        return ENDED;
    if (host_catch_signals() != 0)
        fail("catching signals");
    open_line();
    next_tick = line_clock();
    run(seconds > 0 ? next_tick + seconds * 1000000 : LINE_NEVER);
    fprintf(stderr, "board: ended, %s\n", host_stopping ? "as a signal asked" : "its time is over");
    return ENDED;
}
