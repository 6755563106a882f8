/*
 * Fixed random lives of every export: each answer, field by field, and each lent byte goes into a hash. tests/targets_test.py runs
 * this with the archive for x86-64 and with those for other processors; what is printed has to be the same. Every random number is
 * drawn in a statement of its own, since C does not order the arguments of a call.
 */
#include "mednukals.h"
#include "targets.h"

enum { ROUNDS = 80, LINE = 1400, OUT = 1500, REPLY = 40, REPORT = 40 };

static uint32_t state, hash_a, hash_b;

static uint8_t line[LINE], held[DXL_MAX_HELD], packet[DXL_MAX_PACKET], out[OUT], body[DXL_MAX_HELD], reply[REPLY];
static struct dxl_reader reader;
static struct dxl_board board;
static uint8_t table[DXL_TABLE_BYTES];
static struct dxl_registered registered;
static uint32_t words[400];
static int32_t goals[260];

/* ---- drawing and hashing ---- */

static uint32_t draw(void)
{
    state ^= state << 13;
    state ^= state >> 17;
    state ^= state << 5;
    return state;
}

static uint32_t below(uint32_t n)
{
    return (draw() >> 8) % n;
}

/* True once in n times. */
static int once_in(uint32_t n)
{
    return below(n) == 0;
}

static void mix(uint8_t byte)
{
    hash_a = (hash_a ^ byte) * 16777619u;
    hash_b = (hash_b << 5 | hash_b >> 27) + (hash_a ^ byte);
}

static void bytes(const uint8_t *from, size_t n)
{
    for (size_t i = 0; i < n; i++)
        mix(from[i]);
}

static void number(int64_t value)
{
    for (int i = 0; i < 64; i += 8)
        mix((uint8_t)((uint64_t)value >> i));
}

static void size(size_t value)
{
    number((int64_t)(uint64_t)value);
}

static void write_of(const struct dxl_registered *it)
{
    number(it->address), mix(it->count), bytes(it->bytes, sizeof it->bytes), number(it->min), number(it->max);
}

static void reply_of(const struct dxl_reply *it)
{
    mix(it->speaks), mix(it->id), mix(it->error), mix(it->count), bytes(it->bytes, sizeof it->bytes), size(it->slot);
}

/* A buffer's size: enough, just enough for `needed` bytes, one byte too few, or any. */
static size_t room_for(int64_t needed, size_t enough)
{
    uint32_t how = below(8), any = below((uint32_t)enough);
    size_t exact = needed > 0 && (size_t)needed < enough ? (size_t)needed : enough;
    return how < 4 ? enough : how == 4 ? any : how == 5 ? exact - 1 : exact;
}

/* ---- random bytes ---- */

/* Any bytes; those of a header; those and some that packets have; small ones. */
static void fill(uint8_t *to, size_t n, uint32_t how)
{
    static const uint8_t parts[] = {0xFF, 0xFF, 0xFD, 0x00, 0xFD, 0xFF, 1, 3};
    for (size_t i = 0; i < n; i++) {
        uint32_t drawn = draw() >> 8;
        to[i] = (uint8_t)(how == 0 ? drawn : how == 1 ? parts[drawn % 4] : how == 2 ? parts[drawn % 8] : drawn % 3);
    }
}

static void fill_any(uint8_t *to, size_t n)
{
    uint32_t how = below(4);
    fill(to, n, how);
}

static void flip(uint8_t *in, size_t n)
{
    uint32_t at = below((uint32_t)n), bit = below(8);
    in[at] ^= (uint8_t)(1u << bit);
}

enum { PROTOCOL_2, PROTOCOL_1, MERCURY };

static int64_t encode(int protocol, uint8_t id, uint8_t instruction, const uint8_t *params, size_t n, size_t most, size_t at)
{
    if (protocol == PROTOCOL_1)
        return dxl_p1_encode(id, instruction, params, n, line, most, at);
    if (protocol == MERCURY)
        return dxl_mercury_encode(id, instruction, params, n, line, most, at);
    return dxl_encode(id, instruction, params, n, line, most, at);
}

static uint8_t some_id(void)
{
    uint32_t near = below(4), how = below(6), any = draw();
    return (uint8_t)(how < 4 ? near : how == 4 ? DXL_BROADCAST_ID : any);
}

/* What follows in the line at n: a packet, whole, damaged or cut, or noise. Answers its length. */
static size_t some_piece(int protocol, size_t most, size_t n)
{
    static uint8_t params[DXL_MAX_BODY];
    uint32_t bound = once_in(6) ? 200 : 12;
    uint32_t count = once_in(20) ? sizeof params - below(12) : below(bound), noise = below(8) > 4;
    uint8_t id = some_id(), instruction = (uint8_t)(once_in(4) ? draw() : 1 + below(8));
    fill_any(params, count);
    if (noise && once_in(4)) /* the front of the longest packet */
        params[0] = params[1] = 0xFF, params[2] = 0xFD, params[3] = 0, params[4] = 1, params[5] = 0, params[6] = 4;
    int64_t made = noise ? 0 : encode(protocol, id, instruction, params, count, most, n);
    number(made);
    if (made <= 0) {
        count = count > most - n ? (uint32_t)(most - n) : count;
        for (uint32_t i = 0; i < count; i++)
            line[n + i] = params[i];
        return count + (count == 0);
    }
    if (once_in(4))
        flip(line + n, (size_t)made);
    return (size_t)made - (once_in(9) ? below((uint32_t)made) : 0);
}

static void make_line(int protocol, size_t most)
{
    size_t n = 0;
    while (n < most)
        n += some_piece(protocol, most, n);
}

/* ---- orders: packets that a device has something to do for ---- */

static const uint8_t ADDRESS[] = {0, 6, 7, 8, 20, 48, 52, 64, 65, 68, 69, 70, 104, 116, 132};
static const uint8_t BYTES[] = {2, 1, 1, 1, 4, 4, 4, 1, 1, 1, 1, 1, 4, 4, 4};
enum { REGISTERS = sizeof ADDRESS };

static size_t put_register(uint8_t *params, size_t n, uint32_t which)
{
    uint32_t how = below(24), any = below(140); /* sometimes right behind a register, or right before it */
    uint32_t beside = ADDRESS[which] + (how < 5 ? BYTES[which] : 0u) - (how == 5);
    params[n] = (uint8_t)(how == 0 ? any : beside);
    params[n + 1] = 0, params[n + 2] = BYTES[which], params[n + 3] = 0;
    return n + 4;
}

/* The entries of a Sync or Bulk, behind the n parameters that are there. */
static size_t put_entries(uint8_t *params, size_t n, uint8_t instruction, uint32_t data)
{
    for (uint32_t left = below(6); left > 0; left--) {
        uint32_t low = below(4), high = 251 + below(4);
        params[n++] = (uint8_t)(once_in(20) ? high : low);
        if (instruction == DXL_INST_BULK_READ || instruction == DXL_INST_BULK_WRITE) {
            uint32_t which = below(REGISTERS);
            n = put_register(params, n, which);
            data = BYTES[which];
        }
        if (instruction == DXL_INST_SYNC_WRITE || instruction == DXL_INST_BULK_WRITE) {
            fill(params + n, data, 3);
            n += data;
        }
    }
    return n;
}

/* The parameters of a Write: sometimes a value that is within its range. */
static size_t put_value(uint8_t *params, uint32_t length)
{
    uint32_t how = once_in(2) ? 3 : 0, fits = below(2);
    fill(params + 2, length, how);
    if (length == 4 && fits)
        params[3] &= 15, params[4] = params[5] = 0;
    return 2 + length;
}

static size_t put_params(uint8_t *params, uint8_t instruction)
{
    uint32_t which = below(REGISTERS), odd = below(10), option = draw();
    uint32_t length = once_in(8) ? odd : BYTES[which];
    put_register(params, 0, which);
    params[1] = once_in(30);
    params[2] = (uint8_t)(length = instruction == DXL_INST_SYNC_WRITE && length > 8 ? 8 : length);
    switch (instruction) {
    case DXL_INST_READ: return 4;
    case DXL_INST_WRITE:
    case DXL_INST_REG_WRITE: return put_value(params, length);
    case DXL_INST_FACTORY_RESET: params[0] = (uint8_t)(once_in(3) ? option : option & 1 ? 0xFF : 1); return 1;
    case DXL_INST_SYNC_READ:
    case DXL_INST_SYNC_WRITE: return put_entries(params, 4, instruction, length);
    case DXL_INST_BULK_READ:
    case DXL_INST_BULK_WRITE: return put_entries(params, 0, instruction, 0);
    default: return 0;
    }
}

static size_t make_orders(size_t most)
{
    static const uint8_t instructions[] = {1, 2, 3, 4, 5, 6, 8, 0x82, 0x83, 0x92, 0x93, 0x55};
    size_t n = 0;
    for (;;) {
        uint8_t params[160] = {0};
        uint8_t instruction = instructions[below(sizeof instructions)], id = (uint8_t)(once_in(5) ? some_id() : 1);
        size_t count = put_params(params, instruction);
        if (instruction >= DXL_INST_SYNC_READ && !once_in(9))
            id = DXL_BROADCAST_ID;
        if (once_in(25))
            count = below(20);
        int64_t made = dxl_encode(id, instruction, params, count, line, most, n);
        number(made);
        if (made < 0)
            return n;
        if (once_in(12))
            flip(line + n, (size_t)made);
        n += (size_t)made;
    }
}

/* ---- readers ---- */

static struct dxl_step gap_of(int protocol, int whole, size_t *count)
{
    if (protocol == PROTOCOL_1)
        return dxl_p1_gap(held, count, packet);
    if (protocol == MERCURY)
        return dxl_mercury_gap(held, count, packet);
    return whole ? dxl_reader_gap(&reader, packet) : dxl_gap(held, count, packet);
}

static struct dxl_step feed_of(int protocol, int whole, size_t *count, const uint8_t *chunk, size_t n)
{
    if (protocol == PROTOCOL_1)
        return dxl_p1_feed(held, count, chunk, n, packet);
    if (protocol == MERCURY)
        return dxl_mercury_feed(held, count, chunk, n, packet);
    return whole ? dxl_reader_feed(&reader, chunk, n, packet) : dxl_feed(held, count, chunk, n, packet);
}

static size_t some_chunk(size_t left)
{
    uint32_t bound = once_in(3) ? 300 : 14;
    uint32_t n = below(bound);
    return n > left ? left : n;
}

static void device_hears(struct dxl_step step);

/* A line of n bytes in chunks, now and then a gap, and one at its end. */
static void read_line(int protocol, size_t n, void (*hears)(struct dxl_step))
{
    int whole = protocol == PROTOCOL_2 && once_in(2), ended = 0;
    size_t at = 0, most = protocol == PROTOCOL_2 ? DXL_MAX_HELD : DXL_V1_MAX_HELD;
    fill(held, sizeof held, 0);
    size_t count = reader.count = once_in(10) ? most - 100 + below(200) : 0;
    while (!ended) {
        size_t chunk = some_chunk(n - at);
        int gap = at == n || once_in(40);
        struct dxl_step step = gap ? gap_of(protocol, whole, &count) : feed_of(protocol, whole, &count, line + at, chunk);
        size(step.taken), size(step.count), mix(step.kind), mix(step.id), size(whole ? reader.count : count);
        bytes(whole ? reader.bytes : held, most), bytes(packet, most + 1);
        if (step.kind == DXL_BAD_READER)
            reader.count = count = 0;
        else
            at += step.taken;
        if (hears != NULL && (step.kind == DXL_PACKET || step.kind == DXL_BAD_CHECKSUM))
            hears(step);
        ended = gap && at == n && step.kind == DXL_NO_EVENT;
    }
}

/* ---- a device in single calls ---- */

static void disturb_device(void)
{
    size_t n = once_in(9) ? below(140) : sizeof table;
    if (once_in(20))
        fill_any(table, sizeof table);
    if (once_in(10))
        number(dxl_fresh(table, n));
    if (once_in(5)) {
        int32_t position = (int32_t)draw();
        uint8_t error = (uint8_t)below(3);
        number(dxl_measure(table, n, position, error));
    }
    if (once_in(6)) {
        fill(registered.bytes, sizeof registered.bytes, 0);
        registered.address = (uint16_t)below(140);
        registered.count = (uint8_t)below(10);
        registered.min = (int32_t)below(3);
        registered.max = 4095;
    }
}

/* Carries out, and writes the status of the reply, which is sometimes another. */
static struct dxl_answer in_two_calls(struct dxl_carried carried, size_t n_reply)
{
    struct dxl_answer answer = {0};
    number(carried.refusal), reply_of(&carried.reply), write_of(&carried.registered);
    if (once_in(10)) {
        carried.reply.speaks = (uint8_t)below(3);
        carried.reply.id = (uint8_t)draw();
        carried.reply.count = (uint8_t)below(10);
        carried.reply.slot = draw();
        fill_any(carried.reply.bytes, sizeof carried.reply.bytes);
    }
    answer.count = dxl_status(carried.reply, reply, n_reply);
    answer.slot = carried.reply.slot;
    answer.registered = carried.registered;
    return answer;
}

static struct dxl_answer of_body(struct dxl_step step, size_t n_table, size_t n_body, size_t n_reply)
{
    int64_t n = step.kind == DXL_PACKET ? dxl_unstuff(packet + 7, step.count - 9, body, n_body) : 0;
    number(n), bytes(body, sizeof body);
    size_t count = n < 0 ? 0 : (size_t)n;
    if (once_in(2))
        return dxl_device(table, n_table, registered, step.kind, step.id, body, count, reply, n_reply);
    return in_two_calls(dxl_carry_out(table, n_table, registered, step.kind, step.id, body, count), n_reply);
}

static void device_hears(struct dxl_step step)
{
    struct dxl_answer answer;
    disturb_device();
    size_t n_table = once_in(30) ? below(138) : sizeof table, n_reply = once_in(12) ? below(REPLY) : sizeof reply;
    size_t n_body = once_in(12) ? below(40) : sizeof body;
    uint32_t way = step.kind == DXL_PACKET ? below(4) : 3;
    if (way == 0)
        answer = dxl_exchange(table, n_table, registered, packet, step.count, body, n_body, reply, n_reply);
    else if (way == 1)
        answer = in_two_calls(dxl_carry_out_packet(table, n_table, registered, packet, step.count, body, n_body), n_reply);
    else
        answer = of_body(step, n_table, n_body, n_reply);
    number(answer.count), size(answer.slot), write_of(&answer.registered);
    bytes(table, sizeof table), bytes(reply, sizeof reply), bytes(body, sizeof body);
    registered = answer.registered;
}

/* ---- a board ---- */

static void board_step(struct dxl_board_step step)
{
    size(step.taken), size(step.count), mix(step.kind), mix(step.id), mix(step.instruction), mix(step.error);
    reply_of(&step.reply), write_of(&step.registered);
    number(dxl_status(step.reply, reply, sizeof reply)), bytes(reply, sizeof reply);
    bytes(board.held, sizeof board.held), bytes(board.packet, sizeof board.packet), bytes(board.table, sizeof board.table);
    size(board.count), write_of(&board.registered);
}

/* Each of the three refusals, and a table with other limits. */
static void disturb_board(void)
{
    if (once_in(60))
        board.count = 1000 + below(60);
    if (once_in(60))
        board.table[DXL_REG_ID] = (uint8_t)(250 + below(6));
    if (once_in(60))
        board.registered.count = (uint8_t)(7 + below(4));
    if (once_in(60))
        fill_any(board.table + DXL_REG_MAX_POSITION, 8);
}

/* By the header's inline calls, or by those that they make; of the latter the registered write is sometimes not stored. */
static struct dxl_board_step board_call(int gap, const uint8_t *chunk, size_t n)
{
    uint32_t way = below(4);
    if (way < 2)
        return gap ? dxl_board_gap(&board) : dxl_board_feed(&board, chunk, n);
    struct dxl_board_step step =
        gap ? dxl_board_gap_parts(board.held, &board.count, board.packet, board.table, board.registered)
            : dxl_board_feed_parts(board.held, &board.count, chunk, n, board.packet, board.table, board.registered);
    if (way == 2)
        board.registered = step.registered;
    return step;
}

static void board_life(size_t n)
{
    size_t at = 0;
    int ended = 0;
    dxl_board_start(&board);
    while (!ended) {
        disturb_board();
        size_t chunk = some_chunk(n - at);
        int gap = at == n || once_in(40);
        struct dxl_board_step step = board_call(gap, line + at, chunk);
        board_step(step);
        at += step.taken;
        if (step.kind > DXL_BAD_CHECKSUM)
            dxl_board_start(&board);
        ended = gap && at == n && step.kind == DXL_NO_EVENT;
    }
}

/* ---- logs ---- */

static void ask_log(size_t n)
{
    number(dxl_log_check(out, n));
    for (int i = 0; i < 6; i++) {
        uint8_t any = (uint8_t)draw();
        struct dxl_found found = dxl_log_last(out, n, (uint8_t)(i < 4 ? i : i == 4 ? DXL_BROADCAST_ID : any));
        number(found.found), size(found.segment), size(found.offset);
    }
}

static void salvage_log(size_t n)
{
    size_t n_out = room_for((int64_t)n, sizeof line), n_report = once_in(9) ? below(20) : sizeof words / sizeof words[0];
    fill(line, sizeof line, 0);
    struct dxl_salvaged made = dxl_log_salvage(out, n, line, n_out, words, n_report);
    number(made.count), size(made.dropped), size(made.index_changed), size(made.leftover), mix(made.header_changed);
    bytes(line, sizeof line);
    for (int i = 0; i < REPORT; i++)
        number(words[i]);
}

/* The log of some segments, whole, damaged or cut. */
static void log_life(void)
{
    size_t n = 0, segments = below(6);
    make_line(PROTOCOL_2, 300);
    for (size_t i = 0; i < segments; i++)
        n += words[i] = below(60);
    size_t room = room_for((int64_t)(DXL_LOG_FRONT + DXL_LOG_ENTRY * segments + n), sizeof out);
    fill(out, sizeof out, 0);
    int64_t made = dxl_log_write(line, n, words, segments, out, room);
    number(made), bytes(out, sizeof out);
    size_t length = made < 0 ? 1100 + below(300) : (size_t)made;
    if (once_in(2))
        flip(out, length);
    if (once_in(3))
        length -= below((uint32_t)length);
    ask_log(length);
    salvage_log(length);
}

/* ---- plans ---- */

static void plan_life(void)
{
    uint32_t rare = once_in(3) ? 1 : 12;
    size_t n = once_in(12) ? below(260) : 253;
    for (size_t i = 0; i < 253; i++) {
        int32_t goal = (int32_t)below(4096);
        goals[i] = once_in(rare) ? goal : -1;
    }
    if (once_in(9)) {
        uint32_t which = below(253);
        goals[which] = (int32_t)draw();
    }
    fill(out, sizeof out, 0);
    int64_t made = dxl_plan(goals, n, out, sizeof out);
    size_t room = room_for(made, sizeof out);
    number(made), number(dxl_plan(goals, n, out, room)), bytes(out, sizeof out);
    size_t length = made > 0 ? (size_t)made : 1 + below(100);
    number(dxl_plan_check(goals, n, out, length));
    flip(out, length);
    number(dxl_plan_check(goals, n, out, length));
    uint32_t cut = below((uint32_t)length);
    number(dxl_plan_check(goals, n, out, cut));
}

/* ---- checksums, packets at their bounds, and the plain reader ---- */

static void sums(void)
{
    uint32_t n = below(300), k = below(20), far = draw(), near = below(3000), start = draw();
    fill(line, n, 0);
    number(dxl_version());
    number(dxl_crc16((uint16_t)start, line, n));
    number(dxl_crc16_flipped((uint16_t)start, line, k, once_in(3) ? far : near));
}

static void plain_reading(void)
{
    uint32_t n = below(700), odd = draw();
    size_t from = once_in(5) ? odd : 0;
    make_line(PROTOCOL_2, n);
    struct dxl_event event = {0};
    for (int i = 0; i < 50; i++) {
        event = dxl_next_event(line, n, from);
        size(event.offset), size(event.count), size(event.next), mix(event.kind), mix(event.id);
        if (event.kind == DXL_NO_EVENT)
            return;
        from = event.next;
    }
}

static void long_packets(void)
{
    uint32_t n = 900 + below(200), id = draw(), instruction = draw(), how = below(3), far = draw();
    size_t at = once_in(9) ? far : below(300);
    fill(line, n, how);
    fill(out, sizeof out, 0);
    int64_t made = dxl_encode((uint8_t)id, (uint8_t)instruction, line, n, out, sizeof out, at);
    size_t room = room_for(made + (int64_t)at, sizeof out);
    number(made), number(dxl_encode((uint8_t)id, (uint8_t)instruction, line, n, out, room, at)), bytes(out, sizeof out);
    made = dxl_unstuff(line, n, out, sizeof out);
    room = room_for(made, sizeof out);
    number(made), number(dxl_unstuff(line, n, out, room)), bytes(out, sizeof out);
}

/* ---- the parts, and their hashes ---- */

static void reader_round(int protocol)
{
    size_t n = 200 + below(1100);
    make_line(protocol, n);
    read_line(protocol, n, NULL);
}

static void reader_part(void)
{
    reader_round(PROTOCOL_2);
}

static void protocol_1_part(void)
{
    reader_round(PROTOCOL_1);
}

static void mercury_part(void)
{
    reader_round(MERCURY);
}

static void device_part(void)
{
    uint32_t n = 300 + below(900);
    dxl_fresh(table, sizeof table);
    read_line(PROTOCOL_2, make_orders(n), device_hears);
}

static void board_part(void)
{
    uint32_t n = 300 + below(900);
    if (once_in(3)) {
        make_line(PROTOCOL_2, n);
        board_life(n);
    } else {
        board_life(make_orders(n));
    }
}

static void rest_part(void)
{
    sums();
    plain_reading();
    long_packets();
}

static const struct {
    const char *name;
    void (*life)(void);
} PARTS[] = {{"reader", reader_part}, {"p1", protocol_1_part}, {"mercury", mercury_part}, {"device", device_part},
             {"board", board_part},   {"logs", log_life},      {"plans", plan_life},      {"rest", rest_part}};

void lives(void)
{
    for (uint32_t part = 0; part < sizeof PARTS / sizeof PARTS[0]; part++) {
        hash_a = 2166136261u, hash_b = 0;
        for (uint32_t round = 1; round <= ROUNDS; round++) {
            state = 0x9E3779B9u * round + 77u * part + 1u;
            PARTS[part].life();
        }
        say(PARTS[part].name), say(" "), say_hex(hash_a), say_hex(hash_b), say("\n");
    }
}
