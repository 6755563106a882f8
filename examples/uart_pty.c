/*
 * Runs the board of uart_board.c on a computer: its UART is a pseudo-terminal, with the echo of a bus of one wire pair, and its
 * store and its arm are simulated. examples/talk.py is a master that talks to it.
 */
#include <errno.h>
#include <stdio.h>
#include <stdlib.h>
#include <string.h>

#include "host.h"
#include "pty_line.h"
#include "uart_board.h"

/* Exit codes; 1 is that of host_failed. */
enum { ENDED = 0, BAD_USE = 2, REFUSED = 3 };

enum { TURN = 200 }; /* microseconds: a turn of the loop, and about the time of a byte at 57,600 baud */

static struct line line;
static int64_t now; /* when this turn began to wait for bytes: those that had come by then are in the ring */
static uint32_t received;
static int came; /* bytes have come since the line was idle */

static int torque;
static int32_t goal, position;
static int64_t next_tick;

static uint8_t store[STORE_BYTES]; /* all 0, as one that nothing was stored in; its board comes up fresh */

volatile uint8_t uart_ring[UART_RING];

/* ---- what uart_board.h asks of the hardware ---- */

static void receive(const uint8_t *bytes, size_t n)
{
    for (size_t i = 0; i < n; i++)
        uart_ring[received++ % UART_RING] = bytes[i];
    came = n > 0 || came;
}

uint32_t uart_received(void)
{
    return received;
}

void uart_send(const uint8_t *bytes, size_t n)
{
    if (line_send(&line, bytes, n) != 0) {
        if (errno != EAGAIN)
            host_failed("uart_pty", "writing to the line");
        fprintf(stderr, "uart_pty: a status is lost: nobody reads the line\n");
    }
    receive(bytes, n); /* the echo */
    board_sent();
}

/* A pseudo-terminal has no speed. */
void uart_set_baud(uint32_t baud)
{
    (void)baud;
}

uint32_t clock_micros(void)
{
    return (uint32_t)now;
}

int32_t motor_position(void)
{
    return position;
}

uint8_t motor_errors(void)
{
    return 0;
}

void motor_set_torque(int on)
{
    torque = on;
}

void motor_set_goal(int32_t to)
{
    goal = to;
}

void store_read(uint8_t bytes[STORE_BYTES])
{
    memcpy(bytes, store, STORE_BYTES);
}

void store_write(const uint8_t bytes[STORE_BYTES])
{
    memcpy(store, bytes, STORE_BYTES);
}

void board_fault(int refusal)
{
    fprintf(stderr, "uart_pty: the library refuses a call with %d; include/mednukals.h says what that means\n", refusal);
    exit(REFUSED);
}

/* ---- the loop ---- */

/* At most as many bytes as the board takes in a turn, so that the ring never overflows. */
static void read_line(void)
{
    uint8_t chunk[64];
    int n = line_read(&line, chunk, sizeof chunk);
    if (n < 0)
        host_failed("uart_pty", "reading from the line");
    receive(chunk, (size_t)n);
}

static void move_arm(void)
{
    if (now < next_tick)
        return;
    if (torque)
        position = arm_towards(goal, position);
    next_tick = now + ARM_TICK;
}

/* The line is idle where a wait for bytes has ended without one. */
static void run(int64_t end)
{
    while (!host_stopping && now < end) {
        now = line_clock();
        enum line_news news = line_wait(&line, now + TURN);
        if (news == LINE_BROKEN)
            host_failed("uart_pty", "waiting for the line");
        if (news == LINE_BYTES)
            read_line();
        if (news == LINE_TIME && came) {
            came = 0;
            board_line_idle();
        }
        move_arm();
        board_poll();
    }
}

/* ---- start ---- */

static const char HELP[] =
    "uart_pty [--seconds N]\n"
    "uart_pty -h, uart_pty --help\n"
    "\n"
    "The board of examples/uart_board.c on a pseudo-terminal: ID 1, a gap of 1.5 ms, slots of 6.6 ms.\n"
    "It prints the pseudo-terminal's name, as 'line: PATH', and runs until SIGINT or SIGTERM.\n"
    "\n"
    "--seconds    end after so many seconds, 1 to 86400\n"
    "\n"
    "Exit codes: 0 ended as asked, 1 the system failed, 2 a bad option, 3 the library refused a call\n";

static void bad_use(const char *word, const char *what)
{
    fprintf(stderr, "uart_pty: '%s': %s (--help says more)\n", word, what);
    exit(BAD_USE);
}

/* So many seconds in microseconds; at most five digits, so that nothing overflows. */
static int64_t seconds(const char *text)
{
    size_t digits = strspn(text, "0123456789");
    long n = digits > 0 && digits <= 5 && text[digits] == '\0' ? strtol(text, NULL, 10) : 0;
    if (n < 1 || n > 86400)
        bad_use(text, "wants a number of seconds, 1 to 86400");
    return (int64_t)n * 1000000;
}

/* For how long the board is to run; 0: no end. */
static int64_t options(int argc, char **argv)
{
    if (argc < 2)
        return 0;
    if (strcmp(argv[1], "-h") == 0 || strcmp(argv[1], "--help") == 0) {
        fputs(HELP, stdout);
        exit(ENDED);
    }
    if (strcmp(argv[1], "--seconds") != 0)
        bad_use(argv[1], "no such option");
    if (argc != 3)
        bad_use(argv[argc - 1], argc < 3 ? "wants a number" : "is one word too many");
    return seconds(argv[2]);
}

int main(int argc, char **argv)
{
    int64_t time = options(argc, argv);
    if (host_catch_signals() != 0)
        host_failed("uart_pty", "catching signals");
    board_start();
    const char *failed = line_open(&line);
    if (failed != NULL)
        host_failed("uart_pty", failed);
    run(time > 0 ? line_clock() + time : LINE_NEVER);
    fprintf(stderr, "uart_pty: ended, %s\n", host_stopping ? "as a signal asked" : "its time is over");
    return ENDED;
}
