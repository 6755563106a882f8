#include "worst.h"

#include <string.h>

#include "baseline.h"
#include "lines.h"
#include "mednukals.h"

/* Behind the line on which one call judges 112 packets and tells none comes a Ping, so that a segment has a packet. */
enum { PING = 10, SEGMENT = WORST_CALL + PING, LOG = DXL_LOG_FRONT + DXL_LOG_ENTRY + SEGMENT, IDS = 253, PLAN = 1293 };
enum { PARAMS = DXL_MAX_BODY - 2, ENTRY = 6, LIST = 1 + IDS * ENTRY, CHUNK_V1 = 64, HEADER = 7, CRC_BYTES = 1024 };

/* What is lent to the calls. */
static struct {
    uint8_t line[SEGMENT];
    struct dxl_board board;
    struct dxl_reader reader;
    uint8_t body[LIST], out[DXL_MAX_PACKET], reply[DXL_MIN_REPLY];
    uint8_t held_v1[DXL_V1_MAX_HELD + CHUNK_V1], packet_v1[DXL_V1_MAX_PACKET];
    int32_t goals[IDS];
    uint8_t plan[PLAN], log[LOG], salvaged[LOG];
    uint32_t lengths[1], report[2];
    uint16_t crc;
    size_t n, held, held_of_v1;
    struct dxl_reply waiting;
} lent;

static const struct dxl_registered none;

/* ---- inputs ---- */

static void drawn(void)
{
    draw(lent.line, sizeof lent.line);
    lent.crc = baseline_crc16(0, lent.line, CRC_BYTES);
    lent.n = DXL_V1_MAX_PACKET - 6;
}

/* FF FD again and again, each of which might end what is stuffed, and in the end one that does: so no pass is left out. */
static void marked(void)
{
    for (size_t i = 0; i < PARAMS; i++)
        lent.body[i] = i % 2 == 0 ? 0xFF : 0xFD;
    memcpy(lent.body + PARAMS - 3, "\xFF\xFF\xFD", 3);
    lent.n = PARAMS;
}

/* The packet of these parameters, to us. */
static void marked_packet(void)
{
    marked();
    lent.n = (size_t)baseline_encode(1, DXL_INST_WRITE, lent.body, lent.n, lent.out, sizeof lent.out, 0);
    dxl_board_start(&lent.board);
}

static void worst_line(void)
{
    worst_call(lent.line);
    baseline_encode(1, DXL_INST_PING, lent.line, 0, lent.line, sizeof lent.line, WORST_CALL);
    dxl_board_start(&lent.board);
    lent.reader.count = lent.held = 0;
}

/* A header that promises the longest packet, and the line behind it, are held. */
static void worst_held(void)
{
    worst_line();
    lines[WORST_NOISE].fill(lent.board.held, HEADER);
    memcpy(lent.board.held + HEADER, lent.line, WORST_CALL);
    lent.reader.count = lent.held = lent.board.count = HEADER + WORST_CALL;
    memcpy(lent.reader.bytes, lent.board.held, sizeof lent.reader.bytes);
}

/* FF, at each of which a packet of the old boards might begin: as many as may be held, and a chunk of them. */
static void all_ff_v1(void)
{
    memset(lent.held_v1, 0xFF, sizeof lent.held_v1);
    lent.held_of_v1 = DXL_V1_MAX_HELD;
}

/* A Bulk Write of one byte to every device, ours the last. */
static void every_id(void)
{
    memset(lent.body, 0, sizeof lent.body);
    lent.body[0] = DXL_INST_BULK_WRITE;
    for (size_t i = 0; i < IDS; i++) {
        uint8_t *entry = lent.body + 1 + ENTRY * i;
        entry[0] = (uint8_t)((IDS + 1 - i) % IDS);
        entry[1] = DXL_REG_TORQUE_ENABLE;
        entry[3] = entry[5] = 1;
    }
    lent.n = LIST;
    dxl_board_start(&lent.board);
}

static void eight_bytes(void)
{
    lent.waiting = (struct dxl_reply){1, 1, 0, 8, {0}, 0};
}

static void every_goal(void)
{
    for (size_t id = 0; id < IDS; id++)
        lent.goals[id] = 4095 - (int32_t)id;
}

static void goals_planned(void)
{
    every_goal();
    baseline_plan(lent.goals, IDS, lent.plan, PLAN);
}

static void segment(void)
{
    worst_line();
    lent.lengths[0] = SEGMENT;
}

static void worst_log(void)
{
    segment();
    baseline_log_write(lent.line, SEGMENT, lent.lengths, 1, lent.log, LOG);
}

/* ---- calls ---- */

static int64_t crc16(void)
{
    return dxl_crc16(0, lent.line, CRC_BYTES) == lent.crc;
}

static int64_t crc16_flipped(void)
{
    static const uint8_t flips[1] = {0x10};
    return dxl_crc16_flipped(0, flips, sizeof flips, SIZE_MAX) != 0;
}

static int64_t encode(void)
{
    return dxl_encode(1, DXL_INST_WRITE, lent.body, lent.n, lent.out, sizeof lent.out, 0);
}

static int64_t unstuff(void)
{
    return dxl_unstuff(lent.out + HEADER, DXL_MAX_BODY, lent.body, DXL_MAX_BODY);
}

static int64_t p1_encode(void)
{
    return dxl_p1_encode(1, 3, lent.line, lent.n, lent.packet_v1, sizeof lent.packet_v1, 0);
}

static int64_t mercury_encode(void)
{
    return dxl_mercury_encode(1, 3, lent.line, lent.n, lent.packet_v1, sizeof lent.packet_v1, 0);
}

static int64_t feed(void)
{
    return dxl_feed(lent.board.held, &lent.held, lent.line, WORST_CALL, lent.out).kind;
}

static int64_t reader_feed(void)
{
    return dxl_reader_feed(&lent.reader, lent.line, WORST_CALL, lent.out).kind;
}

static int64_t gap(void)
{
    return dxl_gap(lent.board.held, &lent.held, lent.out).kind;
}

static int64_t reader_gap(void)
{
    return dxl_reader_gap(&lent.reader, lent.out).kind;
}

static int64_t p1_feed(void)
{
    return dxl_p1_feed(lent.held_v1, &lent.held_of_v1, lent.held_v1 + DXL_V1_MAX_HELD, CHUNK_V1, lent.packet_v1).kind;
}

static int64_t mercury_feed(void)
{
    return dxl_mercury_feed(lent.held_v1, &lent.held_of_v1, lent.held_v1 + DXL_V1_MAX_HELD, CHUNK_V1, lent.packet_v1).kind;
}

static int64_t p1_gap(void)
{
    return dxl_p1_gap(lent.held_v1, &lent.held_of_v1, lent.packet_v1).kind;
}

static int64_t mercury_gap(void)
{
    return dxl_mercury_gap(lent.held_v1, &lent.held_of_v1, lent.packet_v1).kind;
}

static int64_t next_event(void)
{
    return dxl_next_event(lent.line, SEGMENT, 0).kind;
}

static int64_t log_write(void)
{
    return dxl_log_write(lent.line, SEGMENT, lent.lengths, 1, lent.log, LOG);
}

static int64_t log_check(void)
{
    return dxl_log_check(lent.log, LOG);
}

static int64_t log_last(void)
{
    return dxl_log_last(lent.log, LOG, 1).found;
}

static int64_t log_salvage(void)
{
    return dxl_log_salvage(lent.log, LOG, lent.salvaged, LOG, lent.report, 2).count;
}

static int64_t fresh(void)
{
    return dxl_fresh(lent.board.table, sizeof lent.board.table);
}

static int64_t measure(void)
{
    return dxl_measure(lent.board.table, sizeof lent.board.table, -1, 1);
}

static int64_t device(void)
{
    return dxl_device(lent.board.table, sizeof lent.board.table, none, DXL_PACKET, DXL_BROADCAST_ID, lent.body, lent.n, lent.reply,
                      sizeof lent.reply).count;
}

static int64_t carry_out(void)
{
    return dxl_carry_out(lent.board.table, sizeof lent.board.table, none, DXL_PACKET, DXL_BROADCAST_ID, lent.body, lent.n).refusal;
}

static int64_t exchange(void)
{
    return dxl_exchange(lent.board.table, sizeof lent.board.table, none, lent.out, lent.n, lent.body, DXL_MAX_BODY, lent.reply,
                        sizeof lent.reply).count;
}

static int64_t carry_out_packet(void)
{
    return dxl_carry_out_packet(lent.board.table, sizeof lent.board.table, none, lent.out, lent.n, lent.body, DXL_MAX_BODY).refusal;
}

static int64_t status(void)
{
    return dxl_status(lent.waiting, lent.reply, sizeof lent.reply);
}

static int64_t board_feed(void)
{
    return dxl_board_feed(&lent.board, lent.line, WORST_CALL).kind;
}

static int64_t board_gap(void)
{
    return dxl_board_gap(&lent.board).kind;
}

static int64_t plan(void)
{
    return dxl_plan(lent.goals, IDS, lent.plan, PLAN);
}

static int64_t plan_check(void)
{
    return dxl_plan_check(lent.goals, IDS, lent.plan, PLAN);
}

#define NAME(function) TEXT(function)
#define TEXT(name) #name

const struct worst_case worst_cases[WORST_CASES] = {
    {NAME(dxl_crc16), "1,024 bytes", drawn, crc16, 1},
    {NAME(dxl_crc16_flipped), "most bytes behind", drawn, crc16_flipped, 1},
    {NAME(dxl_encode), "1,031 bytes", marked, encode, DXL_MAX_PACKET},
    {NAME(dxl_unstuff), "1,022 bytes", marked_packet, unstuff, DXL_MAX_BODY - 1},
    {NAME(dxl_p1_encode), "259 bytes", drawn, p1_encode, DXL_V1_MAX_PACKET},
    {NAME(dxl_mercury_encode), "259 bytes", drawn, mercury_encode, DXL_V1_MAX_PACKET},
    {NAME(dxl_feed), "the worst line", worst_line, feed, DXL_NO_EVENT},
    {NAME(dxl_reader_feed), "the worst line", worst_line, reader_feed, DXL_NO_EVENT},
    {NAME(dxl_gap), "the worst line held", worst_held, gap, DXL_NO_EVENT},
    {NAME(dxl_reader_gap), "the worst line held", worst_held, reader_gap, DXL_NO_EVENT},
    {NAME(dxl_p1_feed), "258 held, 64 more", all_ff_v1, p1_feed, DXL_NO_EVENT},
    {NAME(dxl_mercury_feed), "258 held, 64 more", all_ff_v1, mercury_feed, DXL_NO_EVENT},
    {NAME(dxl_p1_gap), "258 held", all_ff_v1, p1_gap, DXL_NO_EVENT},
    {NAME(dxl_mercury_gap), "258 held", all_ff_v1, mercury_gap, DXL_NO_EVENT},
    {NAME(dxl_next_event), "the worst line", worst_line, next_event, DXL_PACKET},
    {NAME(dxl_log_write), "the worst line", segment, log_write, LOG},
    {NAME(dxl_log_check), "the worst line", worst_log, log_check, 0},
    {NAME(dxl_log_last), "the worst line", worst_log, log_last, 1},
    {NAME(dxl_log_salvage), "the worst line", worst_log, log_salvage, LOG},
    {NAME(dxl_fresh), "136 bytes", drawn, fresh, 0},
    {NAME(dxl_measure), "136 bytes", drawn, measure, 0},
    {NAME(dxl_device), "an entry for each ID", every_id, device, 0},
    {NAME(dxl_carry_out), "an entry for each ID", every_id, carry_out, 0},
    {NAME(dxl_exchange), "1,031 bytes", marked_packet, exchange, 11},
    {NAME(dxl_carry_out_packet), "1,031 bytes", marked_packet, carry_out_packet, 0},
    {NAME(dxl_status), "8 bytes of data", eight_bytes, status, 19},
    {NAME(dxl_board_feed_parts), "the worst line", worst_line, board_feed, DXL_NO_EVENT},
    {NAME(dxl_board_gap_parts), "the worst line held", worst_held, board_gap, DXL_NO_EVENT},
    {NAME(dxl_plan), "253 goals", every_goal, plan, PLAN},
    {NAME(dxl_plan_check), "253 goals", goals_planned, plan_check, 1},
};
