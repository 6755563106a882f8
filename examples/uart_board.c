/*
 * The main loop of a board whose UART receives by DMA into a ring buffer and has an interrupt for an idle line. Plain C, no
 * operating system, no allocation. uart_board.h has what it needs of the hardware.
 */
#include "uart_board.h"

#include <string.h>

#include "mednukals.h"

enum { GAP_MICROS = 1500, CHUNK = 64, OUT_BYTES = 4 * DXL_MIN_REPLY };

static struct dxl_board board;            /* all that the library's calls keep */
static uint8_t acted_on[DXL_TABLE_BYTES]; /* the table as motor and store have it */

static uint32_t taken; /* how many of the received bytes are taken from the ring, or passed over */
static uint32_t speed; /* of the UART, in baud */

static uint8_t out[OUT_BYTES]; /* statuses that are due, one behind the other */
static size_t n_out;

static struct dxl_reply waiting; /* for a later slot; silence: none waits */
static uint32_t waiting_since, waiting_for; /* microseconds */

/* Written by the interrupt handlers. */
static volatile uint32_t idle_at, idle_time; /* how many bytes had come when the line became idle, and when that was */
static volatile uint32_t echo_end;           /* how many had come when all was sent */
static volatile int sending;
static int echoing; /* what was sent last is still in the ring */

/* ---- refusals ---- */

/* Nothing that comes over the line gets a call refused. A refusal means that memory was overwritten or a call is wrong. */
static size_t accepted(int64_t answer)
{
    if (answer < 0)
        board_fault((int)-answer);
    return (size_t)answer;
}

static struct dxl_board_step accepted_step(struct dxl_board_step step)
{
    accepted(step.kind > DXL_BAD_CHECKSUM ? -(int64_t)step.kind : 0);
    return step;
}

/* ---- speed and slots ---- */

/* What a baud code stands for is the firmware's choice. */
static uint32_t baud(void)
{
    static const uint32_t bauds[] = {9600, 57600, 115200, 1000000, 2000000, 3000000, 4000000, 4500000};
    return bauds[board.table[DXL_REG_BAUD_CODE] & 7];
}

/* A slot holds the longest status, 21 bytes with 10 bits each, a gap, and as much again for late turns of the loop. */
static uint32_t slot_micros(void)
{
    return 210u * 1000000u / baud() + 2 * GAP_MICROS;
}

/* ---- ROM over a power cut ---- */

static const struct {
    uint8_t address, size;
} ROM_ITEMS[] = {{DXL_REG_ID, DXL_SIZE_ID},
                 {DXL_REG_BAUD_CODE, DXL_SIZE_BAUD_CODE},
                 {DXL_REG_HOMING_OFFSET, DXL_SIZE_HOMING_OFFSET},
                 {DXL_REG_MAX_POSITION, DXL_SIZE_MAX_POSITION},
                 {DXL_REG_MIN_POSITION, DXL_SIZE_MIN_POSITION}};
enum { N_ROM_ITEMS = sizeof ROM_ITEMS / sizeof ROM_ITEMS[0] };

/* Not from 0: then the checksum of a store of zeros would be right. */
static uint16_t store_checksum(const uint8_t bytes[STORE_BYTES])
{
    return dxl_crc16(0xFFFF, bytes, STORE_BYTES - 2);
}

/* The items one after the other, and their checksum. */
static void save_rom(void)
{
    uint8_t bytes[STORE_BYTES];
    size_t at = 0;
    for (size_t i = 0; i < N_ROM_ITEMS; i++) {
        memcpy(bytes + at, board.table + ROM_ITEMS[i].address, ROM_ITEMS[i].size);
        at += ROM_ITEMS[i].size;
    }
    uint16_t sum = store_checksum(bytes);
    bytes[at] = sum & 0xFF;
    bytes[at + 1] = (uint8_t)(sum >> 8);
    store_write(bytes);
}

/* A Write that nobody sent: the library judges the value as it judges a master's. Returns whether the table has it now. */
static int stored(uint8_t address, const uint8_t *value, size_t n)
{
    uint8_t params[2 + 4] = {address, 0}, write[32];
    memcpy(params + 2, value, n);
    size_t size = accepted(dxl_encode(board.table[DXL_REG_ID], DXL_INST_WRITE, params, 2 + n, write, sizeof write, 0));
    struct dxl_board_step step = accepted_step(dxl_board_feed(&board, write, size));
    return step.kind == DXL_PACKET && step.error == 0;
}

/* Brings the items back into a fresh table. Returns 0 if the store is not as save_rom left it; some may be back by then. */
static int restore_rom(void)
{
    uint8_t bytes[STORE_BYTES];
    store_read(bytes);
    uint16_t sum = store_checksum(bytes);
    int good = bytes[STORE_BYTES - 2] == (sum & 0xFF) && bytes[STORE_BYTES - 1] == sum >> 8;
    /* The goal position gets the min position, the last item, before that is stored: limits that leave it outside are refused. */
    good = good && stored(DXL_REG_GOAL_POSITION, bytes + STORE_BYTES - 2 - DXL_SIZE_MIN_POSITION, DXL_SIZE_GOAL_POSITION);
    size_t at = 0;
    for (size_t i = 0; i < N_ROM_ITEMS; i++) {
        good = good && stored(ROM_ITEMS[i].address, bytes + at, ROM_ITEMS[i].size);
        at += ROM_ITEMS[i].size;
    }
    return good;
}

/* ---- what an instruction has changed ---- */

/* Four bytes of the table, lowest first, as a signed number. */
static int32_t signed_at(size_t address)
{
    const uint8_t *b = board.table + address;
    uint32_t u = (uint32_t)b[0] | (uint32_t)b[1] << 8 | (uint32_t)b[2] << 16 | (uint32_t)b[3] << 24;
    return u <= INT32_MAX ? (int32_t)u : -(int32_t)(UINT32_MAX - u) - 1;
}

static int changed(size_t address, size_t size)
{
    return memcmp(acted_on + address, board.table + address, size) != 0;
}

static int rom_changed(void)
{
    for (size_t i = 0; i < N_ROM_ITEMS; i++) {
        if (changed(ROM_ITEMS[i].address, ROM_ITEMS[i].size))
            return 1;
    }
    return 0;
}

/*
 * Motor and store follow the table. Torque off comes first and torque on last: a Reboot also moves the goal to the min position,
 * and the motor must not start towards it.
 */
static void act_on_changes(void)
{
    int torque = board.table[DXL_REG_TORQUE_ENABLE] != 0;
    int switched = changed(DXL_REG_TORQUE_ENABLE, DXL_SIZE_TORQUE_ENABLE);
    if (switched && !torque)
        motor_set_torque(0);
    if (changed(DXL_REG_GOAL_POSITION, DXL_SIZE_GOAL_POSITION))
        motor_set_goal(signed_at(DXL_REG_GOAL_POSITION));
    if (switched && torque)
        motor_set_torque(1);
    if (rom_changed())
        save_rom();
    memcpy(acted_on, board.table, sizeof acted_on);
}

/* ---- replies ---- */

/* A status that is due goes behind those that have not left yet. Where there is no room, these give way. */
static void put_out(struct dxl_reply reply)
{
    if (sizeof out - n_out < DXL_MIN_REPLY)
        n_out = 0;
    n_out += accepted(dxl_status(reply, out + n_out, sizeof out - n_out));
}

/* The master's packets are all but the statuses of other boards. */
static int is_instruction(struct dxl_board_step step)
{
    return step.kind == DXL_PACKET && board.packet[7] != DXL_INST_STATUS;
}

/* What waits gives way to a newer instruction, whichever device that is for, and to a newer reply: the master waits no more. */
static void answer(struct dxl_board_step step)
{
    struct dxl_reply reply = step.reply;
    if (reply.speaks || is_instruction(step))
        waiting.speaks = 0;
    if (reply.speaks && reply.slot == 0)
        put_out(reply);
    if (reply.speaks && reply.slot > 0) {
        waiting = reply;
        waiting_since = clock_micros();
        waiting_for = (uint32_t)reply.slot * slot_micros();
    }
}

/* ---- what comes in ---- */

/* The library has carried out what it heard; the rest is done here. Returns whether there was an event, and may be another. */
static int heard(struct dxl_board_step step)
{
    if (accepted_step(step).kind == DXL_NO_EVENT)
        return 0;
    answer(step);
    act_on_changes();
    return 1;
}

/* Feeds until a call gives no event, even if no byte is left: more events may lie in the held bytes. */
static void bytes_came(const uint8_t *chunk, size_t n)
{
    struct dxl_board_step step;
    do {
        step = dxl_board_feed(&board, chunk, n);
        chunk += step.taken;
        n -= step.taken;
    } while (heard(step));
}

static void line_was_silent(void)
{
    while (heard(dxl_board_gap(&board)))
        ;
}

/*
 * Copies bytes out of the ring: the DMA goes on writing there, and nobody may write to memory that a call is using. If the loop
 * was so late that the DMA has gone round, bytes are lost, and those before them are a segment of their own.
 */
static size_t take_chunk(uint8_t chunk[CHUNK])
{
    uint32_t n = uart_received() - taken;
    if (n > CHUNK)
        n = CHUNK;
    for (uint32_t i = 0; i < n; i++)
        chunk[i] = uart_ring[(taken + i) % UART_RING];
    if (uart_received() - taken > UART_RING) {
        taken = uart_received();
        line_was_silent();
        return 0;
    }
    taken += n;
    return n;
}

/* All bytes are taken, and none has come since the line became idle. */
static int line_is_idle(void)
{
    return idle_at == taken && uart_received() == taken;
}

/* The line has been idle for longer than a gap. */
static int gap_is_over(void)
{
    uint32_t since = idle_time;
    uint32_t silence = clock_micros() - since;
    return line_is_idle() && silence > GAP_MICROS;
}

/* ---- what goes out ---- */

/* The UART sends from out, which nothing else writes until all is sent. */
static void send_due(void)
{
    if (waiting.speaks && clock_micros() - waiting_since >= waiting_for) {
        put_out(waiting);
        waiting.speaks = 0;
    }
    if (n_out == 0)
        return;
    sending = 1;
    echoing = 1;
    uart_send(out, n_out);
    n_out = 0;
}

/* What came while the board was sending is its own echo. */
static void pass_echo(void)
{
    if (echoing)
        taken = echo_end;
    echoing = 0;
}

/* A new speed begins when the status to the write of it has left with the old one. */
static void follow_baud(void)
{
    if (speed != baud() && n_out == 0 && !waiting.speaks) {
        speed = baud();
        uart_set_baud(speed);
    }
}

/* ---- interrupt handlers, and the loop ---- */

void board_line_idle(void)
{
    idle_time = clock_micros();
    idle_at = uart_received();
}

void board_sent(void)
{
    echo_end = uart_received();
    sending = 0;
}

void board_poll(void)
{
    uint8_t chunk[CHUNK];
    accepted(dxl_measure(board.table, sizeof board.table, motor_position(), motor_errors()));
    if (sending)
        return;
    pass_echo();
    follow_baud();
    size_t n = take_chunk(chunk);
    if (n > 0)
        bytes_came(chunk, n);
    else if (board.count > 0 && gap_is_over())
        line_was_silent();
    if (line_is_idle())
        send_due();
}

void board_start(void)
{
    motor_set_torque(0);
    dxl_board_start(&board);
    if (!restore_rom())
        dxl_board_start(&board); /* all of it, whatever was back already */
    memcpy(acted_on, board.table, sizeof acted_on);
    n_out = 0;
    waiting.speaks = 0;
    sending = 0;
    echoing = 0;
    taken = uart_received();
    speed = baud();
    uart_set_baud(speed);
    motor_set_goal(signed_at(DXL_REG_GOAL_POSITION));
}
