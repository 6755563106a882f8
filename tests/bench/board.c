#include <string.h>

#include "baseline.h"
#include "board.h"
#include "lines.h"

struct board_memory board_memory;

/* The lines: the device that hears them has ID 1. */

/* 16 bytes. */
static size_t write_goal(uint8_t *line, size_t n)
{
    static const uint8_t params[] = {DXL_REG_GOAL_POSITION, 0, 5, 2, 0, 0};
    return (size_t)baseline_encode(1, DXL_INST_WRITE, params, sizeof params, line, n, 0);
}

static size_t ping_to_another(uint8_t *line, size_t n)
{
    return (size_t)baseline_encode(9, DXL_INST_PING, line, 0, line, n, 0);
}

/* Random bytes, of which the last is not FF, so that nothing is held in the end. */
static size_t noise_of_1(uint8_t *line, size_t n)
{
    (void)n;
    draw(line, 1);
    return 1;
}

static size_t noise_of_64(uint8_t *line, size_t n)
{
    (void)n;
    draw(line, 64);
    return 64;
}

static size_t noise_of_1000(uint8_t *line, size_t n)
{
    (void)n;
    draw(line, 1000);
    return 1000;
}

/* 1,014 bytes: goals for 200 devices, ours the last. */
static size_t sync_write(uint8_t *line, size_t n)
{
    enum { DEVICES = 200 };
    uint8_t params[4 + DEVICES * 5] = {DXL_REG_GOAL_POSITION, 0, 4, 0};
    for (size_t i = 0; i < DEVICES; i++) {
        params[4 + i * 5] = (uint8_t)(DEVICES - i);
        params[4 + i * 5 + 1] = 7;
    }
    return (size_t)baseline_encode(DXL_BROADCAST_ID, DXL_INST_SYNC_WRITE, params, sizeof params, line, n, 0);
}

/* 970 bytes: an undefined instruction whose parameters are stuffed wherever they can be. */
static size_t all_stuffed(uint8_t *line, size_t n)
{
    uint8_t params[720];
    for (size_t i = 0; i < sizeof params; i++)
        params[i] = i % 3 == 2 ? 0xFD : 0xFF;
    return (size_t)baseline_encode(1, 0x70, params, sizeof params, line, n, 0);
}

/* The longest packet, 1,031 bytes, with a wrong checksum. */
static size_t damaged(uint8_t *line, size_t n)
{
    uint8_t params[DXL_MAX_BODY - 1];
    for (size_t i = 0; i < sizeof params; i++)
        params[i] = (uint8_t)(i % 200);
    size_t count = (size_t)baseline_encode(1, DXL_INST_WRITE, params, sizeof params, line, n, 0);
    line[count - 1] ^= 1;
    return count;
}

const struct board_line board_lines[BOARD_LINES] = {
    {"Write", write_goal, 0, 1, 0, 5},
    {"Write", write_goal, 1, 1, 0, 5},
    {"noise of 1", noise_of_1, 0, 0, 0, 0},
    {"noise of 64", noise_of_64, 0, 0, 0, 0},
    {"noise of 1000", noise_of_1000, 0, 0, 0, 0},
    {"Ping to another", ping_to_another, 0, 1, 0, 0},
    {"Sync Write", sync_write, 0, 1, 0, 7},
    {"Sync Write", sync_write, 64, 1, 0, 7},
    {"Sync Write", sync_write, 1, 1, 0, 7},
    {"all stuffed", all_stuffed, 0, 1, DXL_ERROR_INSTRUCTION, 0},
    {"damaged", damaged, 1, 1, DXL_ERROR_CHECKSUM, 0},
};

/* The loops. */

/* Whether the loop goes on: an event was told, and there may be more. */
static int told(struct outcome *outcome, size_t taken, size_t count, uint8_t kind, uint8_t id, const struct dxl_reply *reply)
{
    unsigned answer = (unsigned)(taken * 7u + count * 5u + kind * 3u + id);
    int event = kind == DXL_PACKET || kind == DXL_BAD_CHECKSUM;
    if (event) {
        answer += reply->speaks * 11u + reply->error * 13u + reply->count * 17u + reply->bytes[0] + (unsigned)reply->slot;
        answer += board_memory.board.table[DXL_REG_GOAL_POSITION];
        outcome->events++;
        outcome->error = reply->error;
    } else if (kind != DXL_NO_EVENT) {
        outcome->events = -(int64_t)kind;
    }
    outcome->mixed = (uint16_t)(outcome->mixed * 31u + answer);
    return event;
}

struct outcome feed_by_one(const struct one_call *calls, const uint8_t *line, size_t n, size_t chunk)
{
    struct dxl_board *b = &board_memory.board;
    struct outcome outcome = {0, 0, 0};
    for (size_t at = 0; at < n; at += chunk) {
        const uint8_t *rest = line + at;
        size_t left = n - at < chunk ? n - at : chunk;
        struct dxl_board_step step;
        do {
            step = calls->feed(b->held, &b->count, rest, left, b->packet, b->table, b->registered);
            b->registered = step.registered;
            rest += step.taken;
            left -= step.taken;
        } while (told(&outcome, step.taken, step.count, step.kind, step.id, &step.reply));
    }
    return outcome;
}

struct outcome gap_by_one(const struct one_call *calls)
{
    struct dxl_board *b = &board_memory.board;
    struct outcome outcome = {0, 0, 0};
    struct dxl_board_step step;
    do {
        step = calls->gap(b->held, &b->count, b->packet, b->table, b->registered);
        b->registered = step.registered;
    } while (told(&outcome, step.taken, step.count, step.kind, step.id, &step.reply));
    return outcome;
}

/* What the reader has told is carried out, as the header shows it. */
static int carried(const struct single_calls *calls, struct outcome *outcome, const struct dxl_step *step)
{
    struct dxl_board *b = &board_memory.board;
    uint8_t *body = board_memory.body;
    if (step->kind != DXL_PACKET && step->kind != DXL_BAD_CHECKSUM)
        return told(outcome, step->taken, step->count, step->kind, step->id, NULL);
    int64_t n = 0;
    if (step->kind == DXL_PACKET)
        n = calls->unstuff(b->packet + 7, step->count - 9, body, DXL_MAX_BODY);
    struct dxl_carried done =
        calls->carry_out(b->table, sizeof b->table, b->registered, step->kind, step->id, body, (size_t)n);
    b->registered = done.registered;
    return told(outcome, step->taken, step->count, step->kind, step->id, &done.reply);
}

struct outcome feed_by_single(const struct single_calls *calls, const uint8_t *line, size_t n, size_t chunk)
{
    struct dxl_board *b = &board_memory.board;
    struct outcome outcome = {0, 0, 0};
    for (size_t at = 0; at < n; at += chunk) {
        const uint8_t *rest = line + at;
        size_t left = n - at < chunk ? n - at : chunk;
        struct dxl_step step;
        do {
            step = calls->feed(b->held, &b->count, rest, left, b->packet);
            rest += step.taken;
            left -= step.taken;
        } while (carried(calls, &outcome, &step));
    }
    return outcome;
}

struct outcome gap_by_single(const struct single_calls *calls)
{
    struct dxl_board *b = &board_memory.board;
    struct outcome outcome = {0, 0, 0};
    struct dxl_step step;
    do {
        step = calls->gap(b->held, &b->count, b->packet);
    } while (carried(calls, &outcome, &step));
    return outcome;
}

/* Field by field: what lies between them may be anything. */
static int same_steps(const struct dxl_board_step *a, const struct dxl_board_step *b)
{
    const struct dxl_reply *r = &a->reply, *s = &b->reply;
    const struct dxl_registered *x = &a->registered, *y = &b->registered;
    return a->taken == b->taken && a->count == b->count && a->kind == b->kind && a->id == b->id
           && a->instruction == b->instruction && a->error == b->error && r->speaks == s->speaks && r->id == s->id
           && r->error == s->error && r->count == s->count && memcmp(r->bytes, s->bytes, sizeof r->bytes) == 0
           && r->slot == s->slot && x->address == y->address && x->count == y->count
           && memcmp(x->bytes, y->bytes, sizeof x->bytes) == 0 && x->min == y->min && x->max == y->max;
}

static int same_boards(const struct dxl_board *a, const struct dxl_board *b)
{
    return memcmp(a->held, b->held, sizeof a->held) == 0 && memcmp(a->packet, b->packet, sizeof a->packet) == 0
           && memcmp(a->table, b->table, sizeof a->table) == 0 && a->count == b->count;
}

int boards_alike(const struct one_call *a, const struct one_call *b, const uint8_t *line, size_t n, size_t chunk)
{
    static struct dxl_board x, y;
    dxl_board_start(&x);
    memset(x.packet, 0xA5, sizeof x.packet); /* what is cleared shows */
    memset(x.held, 0xA5, sizeof x.held);
    y = x;
    for (size_t at = 0; at < n;) {
        size_t left = n - at < chunk ? n - at : chunk;
        struct dxl_board_step s = a->feed(x.held, &x.count, line + at, left, x.packet, x.table, x.registered);
        struct dxl_board_step t = b->feed(y.held, &y.count, line + at, left, y.packet, y.table, y.registered);
        x.registered = s.registered;
        y.registered = t.registered;
        if (!same_steps(&s, &t) || !same_boards(&x, &y))
            return 0;
        at += s.taken;
    }
    struct dxl_board_step s = a->gap(x.held, &x.count, x.packet, x.table, x.registered);
    struct dxl_board_step t = b->gap(y.held, &y.count, y.packet, y.table, y.registered);
    return same_steps(&s, &t) && same_boards(&x, &y);
}
