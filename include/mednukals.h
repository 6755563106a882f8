/*
 * Mednukals: the bus side of a DYNAMIXEL Protocol 2.0 device.
 *
 * Link with libmednukals.a, whose checksum table has 512 bytes, with libmednukals_small.a, whose table has 32, or with
 * libmednukals_fold.a, which has none; on x86-64 each has a shared library beside it, of the same objects. docs/INTEGRATING.md is
 * about the firmware around these calls.
 *
 * What each function of the archive returns, writes and refuses is proved for all inputs, as long as the caller keeps two rules
 * that C cannot check:
 *
 * - Every pointer is valid and not null, even if its length is 0 (then nothing is read or written through it). The length is right,
 *   and memory that the call writes is writable.
 * - Nobody else writes that memory during the call, and memory that the call writes overlaps no other memory passed to it.
 *
 * A call that can be refused returns a count, 0 or more, or minus the number of the refusal. A call that returns a step has that
 * number as the step's kind. A refused call changes no memory. Refusals are tested in the order listed. A count above INT64_MAX,
 * which no memory holds, is returned as INT64_MAX.
 *
 * Tested, or read off the code, but not proved: No function keeps state, allocates, locks or blocks. Calls on different memory may
 * run at the same time, in several threads and in interrupt handlers; two calls on one board, reader or table may not. No function
 * calls itself, so stack use is bounded. The three inline functions are C. Nothing is proved about time. The archives for x86-64 are
 * meant here; beside one for another processor stands a text that says what of it is proved and what is believed.
 */

/*
 * What to call, by the sections below:
 *
 *   a device on a line
 *     make it ready, at power-up               dxl_board_start
 *     take received bytes and act on them      dxl_board_feed; on parts of your own: dxl_board_feed_parts
 *     report that the line was silent          dxl_board_gap; dxl_board_gap_parts
 *     write a status when its slot has come    dxl_status
 *     store measurements                       dxl_measure
 *     fill a table with its fresh values       dxl_fresh
 *   a device in single calls
 *     find packets, as they were received      dxl_reader_feed, dxl_reader_gap; on parts: dxl_feed, dxl_gap
 *     carry one out, and answer at once        dxl_exchange; given the body: dxl_device
 *     carry one out, and answer in its slot    dxl_carry_out_packet; given the body: dxl_carry_out
 *   packets and checksums
 *     write a packet                           dxl_encode
 *     remove the stuffing of a body            dxl_unstuff
 *     compute a checksum                       dxl_crc16; after flipped bits: dxl_crc16_flipped
 *   captures and logs
 *     find the packets of a capture            dxl_next_event
 *     keep captures in a file with an index    dxl_log_write
 *     check, query, salvage such a file        dxl_log_check, dxl_log_last, dxl_log_salvage
 *   plans of goals
 *     set the goals of many devices at once    dxl_plan
 *     check such a plan                        dxl_plan_check
 *   old boards
 *     write a packet                           dxl_p1_encode, dxl_mercury_encode
 *     find packets                             dxl_p1_feed, dxl_p1_gap, dxl_mercury_feed, dxl_mercury_gap
 *   the library itself
 *     ask for the archive's version            dxl_version
 */
#ifndef MEDNUKALS_H
#define MEDNUKALS_H

#include <stddef.h>
#include <stdint.h>

/* CHANGELOG.md says what each version has. */
#define DXL_VERSION_MAJOR 0
#define DXL_VERSION_MINOR 1
#define DXL_VERSION_PATCH 0
#define DXL_VERSION "0.1.0"
#define DXL_VERSION_NUMBER (DXL_VERSION_MAJOR * 10000 + DXL_VERSION_MINOR * 100 + DXL_VERSION_PATCH)

#ifdef __cplusplus
extern "C" {
#endif

/* ---- numbers ---- */

/* Refusals. docs/RULES.md, group N, says which call gives which, and in what order. */
enum {
    DXL_BAD_ID = 11,         /* the ID is 253 or 255; in Protocol 1.0 only 255; in a status also 254 */
    DXL_TOO_LONG = 12,       /* the length, which counts stuffed body and checksum, would pass 1,024; on the old boards 255; in a
                                status, more than 8 bytes of data */
    DXL_NO_ROOM = 13,        /* the output buffer is too small; in a salvage also the report */
    DXL_BAD_STUFFING = 14,   /* the body is not well stuffed */
    DXL_NOT_A_TABLE = 21,    /* the control table is not 136 bytes long */
    DXL_BAD_TABLE_ID = 22,   /* the control table's ID, byte 7, is above 252 */
    DXL_BAD_REGISTERED = 23, /* the registered write's count is above 8 */
    DXL_SHORT_REPLY = 24,    /* the reply buffer has fewer than 32 bytes */
    DXL_BAD_READER = 25,     /* the reader's count is above 1,030; on the old boards above 258 */
    DXL_BAD_LOG = 31,        /* the file is not laid out as a log, or no log can be made of the segments */
    DXL_BAD_LOG_ID = 32,     /* a log was asked for ID 253 or 255 */
    DXL_BAD_LOG_SIZE = 33,   /* the file to be salvaged is shorter or longer than a log can be */
    DXL_WRONG_INDEX = 34,    /* the log's index does not match its segments */
    DXL_NOT_GOALS = 41,      /* the list of wanted goals is not 253 long */
    DXL_BAD_GOAL = 42        /* a wanted goal is below -1 or above 4,095 */
};

enum {
    DXL_MAX_PACKET = 1031, /* the longest packet */
    DXL_MAX_BODY = 1022,   /* its body, stuffed or unstuffed */
    DXL_MAX_HELD = 1030,   /* the most bytes a reader holds between two calls */
    DXL_TABLE_BYTES = 136, /* the control table */
    DXL_V1_MAX_PACKET = 259, /* the longest packet of Protocol 1.0 and Mercury */
    DXL_V1_MAX_HELD = 258, /* the most bytes a reader of these holds between two calls */
    DXL_MAX_STATUS = 21,   /* the device's longest status packet; dxl_status may write 22 for a reply made elsewhere */
    DXL_MIN_REPLY = 32,    /* the shortest reply buffer accepted */
    DXL_LOG_FRONT = 1032,  /* a log's bytes before its segments, without the directory */
    DXL_LOG_ENTRY = 8      /* the directory's bytes for each segment */
};

/* The ID that addresses all devices. */
enum { DXL_BROADCAST_ID = 254 };

/*
 * The registers of the control table: address, byte count and fresh value of each. Numbers are stored lowest byte first; those of
 * four bytes are signed. ROM can be written only while torque enable is 0.
 */
enum {
    DXL_REG_MODEL_NUMBER = 0,            /* ROM, read only */
    DXL_REG_FIRMWARE_VERSION = 6,        /* ROM, read only */
    DXL_REG_ID = 7,                      /* ROM, 0 to 252 */
    DXL_REG_BAUD_CODE = 8,               /* ROM, 0 to 7 */
    DXL_REG_HOMING_OFFSET = 20,          /* ROM, -1044479 to 1044479 */
    DXL_REG_MAX_POSITION = 48,           /* ROM, 0 to 4095 */
    DXL_REG_MIN_POSITION = 52,           /* ROM, 0 to 4095 */
    DXL_REG_TORQUE_ENABLE = 64,          /* RAM, 0 to 1 */
    DXL_REG_LAMP = 65,                   /* RAM, 0 to 1 */
    DXL_REG_STATUS_RETURN_LEVEL = 68,    /* RAM, 0 to 2 */
    DXL_REG_REGISTERED_INSTRUCTION = 69, /* RAM, read only */
    DXL_REG_HARDWARE_ERROR = 70,         /* RAM, read only */
    DXL_REG_GOAL_VELOCITY = 104,         /* RAM, -330 to 330 */
    DXL_REG_GOAL_POSITION = 116,         /* RAM, 0 to 4095 */
    DXL_REG_PRESENT_POSITION = 132,      /* RAM, read only */

    DXL_SIZE_MODEL_NUMBER = 2,
    DXL_SIZE_FIRMWARE_VERSION = 1,
    DXL_SIZE_ID = 1,
    DXL_SIZE_BAUD_CODE = 1,
    DXL_SIZE_HOMING_OFFSET = 4,
    DXL_SIZE_MAX_POSITION = 4,
    DXL_SIZE_MIN_POSITION = 4,
    DXL_SIZE_TORQUE_ENABLE = 1,
    DXL_SIZE_LAMP = 1,
    DXL_SIZE_STATUS_RETURN_LEVEL = 1,
    DXL_SIZE_REGISTERED_INSTRUCTION = 1,
    DXL_SIZE_HARDWARE_ERROR = 1,
    DXL_SIZE_GOAL_VELOCITY = 4,
    DXL_SIZE_GOAL_POSITION = 4,
    DXL_SIZE_PRESENT_POSITION = 4,

    DXL_FRESH_MODEL_NUMBER = 1030,
    DXL_FRESH_FIRMWARE_VERSION = 38,
    DXL_FRESH_ID = 1,
    DXL_FRESH_BAUD_CODE = 1,
    DXL_FRESH_HOMING_OFFSET = 0,
    DXL_FRESH_MAX_POSITION = 4095,
    DXL_FRESH_MIN_POSITION = 0,
    DXL_FRESH_TORQUE_ENABLE = 0,
    DXL_FRESH_LAMP = 0,
    DXL_FRESH_STATUS_RETURN_LEVEL = 2,
    DXL_FRESH_REGISTERED_INSTRUCTION = 0,
    DXL_FRESH_HARDWARE_ERROR = 0,
    DXL_FRESH_GOAL_VELOCITY = 0,
    DXL_FRESH_GOAL_POSITION = 0,
    DXL_FRESH_PRESENT_POSITION = 0
};

/* Instructions, the first byte of a body. Every other byte is an undefined instruction. */
enum {
    DXL_INST_PING = 0x01,
    DXL_INST_READ = 0x02,
    DXL_INST_WRITE = 0x03,
    DXL_INST_REG_WRITE = 0x04,
    DXL_INST_ACTION = 0x05,
    DXL_INST_FACTORY_RESET = 0x06,
    DXL_INST_REBOOT = 0x08,
    DXL_INST_STATUS = 0x55, /* a status packet, which no device answers */
    DXL_INST_SYNC_READ = 0x82,  /* this and the next three are for all devices only */
    DXL_INST_SYNC_WRITE = 0x83,
    DXL_INST_BULK_READ = 0x92,  /* for each device its ID, an address and a length */
    DXL_INST_BULK_WRITE = 0x93  /* the same, and after each length that many bytes */
};

/* The error byte of a status packet: 0 or one of these numbers, plus the alert while hardware error is not 0. */
enum {
    DXL_ERROR_INSTRUCTION = 0x02, /* an undefined instruction, Sync or Bulk to the own ID, or Action with no registered write */
    DXL_ERROR_CHECKSUM = 0x03,    /* a packet to the own ID with a wrong checksum */
    DXL_ERROR_DATA_RANGE = 0x04,  /* a value outside its register's range, or an unknown option of Factory Reset */
    DXL_ERROR_DATA_LENGTH = 0x05, /* a wrong count of parameters, a length of 0, or a register written in part */
    DXL_ERROR_DATA_LIMIT = 0x06,  /* a write of min, max or goal position that leaves the goal outside the limits; or an Action
                                     under other limits than those at which its write was registered */
    DXL_ERROR_ACCESS = 0x07,      /* an undefined byte, a read-only one, or ROM while torque is on */
    DXL_ERROR_ALERT = 0x80
};

/* Kinds of events. A step has one of these, or the number of a refusal, which is higher. */
enum {
    DXL_NO_EVENT = 0,    /* no event; from a gap call: nothing left */
    DXL_PACKET = 1,      /* a well-formed packet */
    DXL_BAD_CHECKSUM = 2 /* header, ID and length are right, all bytes are there, the checksum is wrong */
};

/* ---- a device on a line ---- */

/*
 * A device with a control table. Instructions are carried out as soon as they are received, and the reply waits for its slot. The
 * whole loop:
 *
 *     static struct dxl_board board;            // dxl_board_start(&board) makes it ready
 *     static struct dxl_reply waiting;          // all 0: silence
 *
 *     void slot_came(void)
 *     {
 *         uint8_t status[DXL_MIN_REPLY];
 *         int64_t n = dxl_status(waiting, status, sizeof status);
 *         if (n < 0)
 *             refused((int)-n);
 *         if (n > 0)
 *             send(status, (size_t)n);          // must copy the bytes, or return when they have left
 *         waiting.speaks = 0;
 *     }
 *
 *     static int heard(struct dxl_board_step step)
 *     {
 *         if (step.kind == DXL_NO_EVENT)
 *             return 0;
 *         if (step.kind > DXL_BAD_CHECKSUM) {
 *             refused(step.kind);               // memory was overwritten: stop the motor, then all of power-up again
 *             return 0;
 *         }
 *         if (step.kind == DXL_PACKET && board.packet[7] != DXL_INST_STATUS)
 *             waiting.speaks = 0;               // a new instruction: the master no longer waits for the old reply
 *         if (step.reply.speaks) {
 *             waiting = step.reply;             // replaces one that still waits
 *             if (waiting.slot == 0)
 *                 slot_came();                  // at once; the main loop calls it for any other slot
 *         }
 *         return 1;
 *     }
 *
 *     void bytes_came(const uint8_t *chunk, size_t n)
 *     {
 *         struct dxl_board_step step;
 *         do {
 *             step = dxl_board_feed(&board, chunk, n);
 *             chunk += step.taken;
 *             n -= step.taken;
 *         } while (heard(step));                // even if n is 0 by now
 *     }
 *
 *     void line_was_silent(void)                // for more than 1.5 ms, which the caller measures
 *     {
 *         while (heard(dxl_board_gap(&board)))
 *             ;
 *     }
 *
 * The rules of this loop. Each goes wrong in silence if you leave it out:
 * - Start the board. A board that is all 0 is not refused: its ID, limits and status return level are 0, and it answers nothing but
 *   Ping. Then restore what you have stored of ROM: a started board has ID 1 and the widest limits.
 * - After each event feed the rest of the chunk again, even if nothing is left, until a call gives DXL_NO_EVENT or is refused.
 *   Bytes that are not fed again are lost, and an event left in the held bytes comes out only with the next call.
 * - Report each gap, until a call gives DXL_NO_EVENT or is refused. Otherwise a packet behind noise may be carried out only when
 *   1,030 bytes have followed the noise, long after the master has given up on it. Restart the gap timer at each byte: a timer that
 *   runs out within a packet cuts it in two.
 * - On a half-duplex line do not feed the board's own echo: if a collision damages it, it is a bad checksum with the own ID, and is
 *   answered.
 * - Check each step. No later one has its reply. A call that was refused is refused again: a loop that waits only for DXL_NO_EVENT
 *   does not end.
 * - Make all calls on a board from one place, dxl_measure on its table too. If an interrupt handler makes one during another,
 *   nothing is promised: packets may be lost without a bad checksum.
 *
 * Between the calls you may read the table: it shows what an instruction has changed. A Reboot was carried out if
 * step.instruction == DXL_INST_REBOOT && step.error == 0. No bytes on the line make any of these calls refuse.
 * examples/uart_board.c and examples/board.c are such loops.
 */

/* A write that waits for Action. A board keeps it. With single calls start with all 0, and pass to each call what the last one
 * returned. */
struct dxl_registered {
    uint16_t address;
    uint8_t count; /* how many of the bytes to write, at most 8; 0 if no write waits */
    uint8_t bytes[8];
    int32_t min; /* min and max position of the table when the write was registered; any numbers are accepted */
    int32_t max;
};

/* A reply. A call returns silence as all 0; dxl_status takes any record. */
struct dxl_reply {
    uint8_t speaks;   /* 0: silence; otherwise: a status */
    uint8_t id;       /* the device's ID, from before the instruction */
    uint8_t error;    /* the error byte; the alert is set if hardware error was not 0 after the instruction */
    uint8_t count;    /* how many of the bytes to send, at most 8 */
    uint8_t bytes[8]; /* the data; 0 past the count, where dxl_status ignores them */
    size_t slot;      /* when to send it: 0 at once; the own ID for a Ping to all devices; the index of the own entry, from 0,
                         for a Sync Read or Bulk Read */
};

/* Everything a device keeps. dxl_board_start makes it ready. After that only the calls write it, one at a time. */
struct dxl_board {
    uint8_t held[DXL_MAX_HELD];       /* the first count bytes wait for more, or for the next call */
    uint8_t packet[DXL_MAX_PACKET];   /* the last packet, as dxl_board_feed_parts describes it */
    uint8_t table[DXL_TABLE_BYTES];   /* the control table */
    size_t count;                     /* at most 1,030 */
    struct dxl_registered registered; /* the write that waits for Action */
};

/* What a call on a board has found and done. If it was refused, registered is unchanged and every other field but kind is 0. */
struct dxl_board_step {
    size_t taken;                     /* how many bytes of the chunk were taken; 0 from a gap call */
    size_t count;                     /* DXL_PACKET: the packet's byte count as received, 10 to 1,031; otherwise 0 */
    uint8_t kind;                     /* DXL_NO_EVENT, DXL_PACKET, DXL_BAD_CHECKSUM, or the number of a refusal */
    uint8_t id;                       /* DXL_PACKET, DXL_BAD_CHECKSUM: the packet's ID, 0 to 252 or 254; otherwise 0 */
    uint8_t instruction;              /* DXL_PACKET to the own ID or to 254: its instruction, which may be a received 00 (then error
                                         is 2); otherwise 0 */
    uint8_t error;                    /* the error number of that instruction without the alert, even if no status is sent; 3 for a
                                         bad checksum with the own ID; otherwise 0 */
    struct dxl_reply reply;           /* pass it to dxl_status when its slot has come */
    struct dxl_registered registered; /* the registered write from now on; dxl_board_feed and dxl_board_gap store it */
};

/*
 * Fills a control table with the fresh value of every register; undefined bytes become 0. For a board use dxl_board_start, which
 * also clears the registered write: if that is left, an Action carries it out on the fresh table.
 *
 * For a model number or a firmware version of your own, store it in bytes 0 and 1 or in byte 6 after this call. No other call
 * changes these bytes, and Ping and Read return them.
 *
 * Returns 0, or -21 if n is not 136; then the table is unchanged.
 */
int64_t dxl_fresh(uint8_t *table, size_t n);

/*
 * Stores measurements: the present position (132 to 135, any signed value, lowest byte first) and the hardware error (70). No other
 * byte of the table changes, and any table contents are accepted. On a board's table call it between the board's calls, not during
 * one.
 *
 * Returns 0, or -21 if n is not 136; then the table is unchanged.
 */
int64_t dxl_measure(uint8_t *table, size_t n, int32_t position, uint8_t hardware_error);

/*
 * Feeds a board whose parts are kept apart: takes bytes of the chunk up to the next event, and carries it out.
 *
 * held, *count   the held bytes; start with a count of 0
 * chunk, n       the received bytes; any bytes, any number of them
 * packet         a buffer for the packet
 * table          the control table, filled by dxl_fresh
 * registered     the registered write: all 0 at first, then that of the last step
 *
 * taken is the fewest bytes of the chunk that decide the event, possibly 0. Without an event all n bytes are taken. Bytes are read
 * as by dxl_reader_feed, and events carried out as by dxl_device, but without its status: what is said there about events, the
 * table and its limits holds here.
 *
 * After DXL_PACKET, packet begins with header, ID and length as received. From packet[7] on it has the body without stuffing, even
 * if the packet is for another device. The body has count - 9 bytes, less one for each FF FF FD in it; the bytes after it mean
 * nothing. Otherwise packet is unchanged; but with DXL_NO_EVENT or DXL_BAD_CHECKSUM it is all 0 if the bytes held before the call
 * and those it took are more than 1,030 together.
 *
 * Refused with kind
 *   25  *count is above 1,030
 *   22  the table's ID (byte 7) is above 252
 *   23  the registered write's count is above 8
 * No bytes on the line lead to that: memory was overwritten.
 */
struct dxl_board_step dxl_board_feed_parts(uint8_t held[DXL_MAX_HELD], size_t *count, const uint8_t *chunk, size_t n,
                                           uint8_t packet[DXL_MAX_PACKET], uint8_t table[DXL_TABLE_BYTES],
                                           struct dxl_registered registered);

/* The same after the line was silent for more than 1.5 ms: finds the next event in the held bytes, as no more bytes will follow.
 * After DXL_NO_EVENT nothing is held. */
struct dxl_board_step dxl_board_gap_parts(uint8_t held[DXL_MAX_HELD], size_t *count, uint8_t packet[DXL_MAX_PACKET],
                                          uint8_t table[DXL_TABLE_BYTES], struct dxl_registered registered);

/* Makes a board ready: no bytes held, nothing registered, a fresh table with ID 1 and the widest limits. The library keeps nothing
 * over a power cut; docs/INTEGRATING.md, 'Power-up', shows how to restore ROM. */
static inline void dxl_board_start(struct dxl_board *board)
{
    uint8_t *bytes = (uint8_t *)board;
    for (size_t i = 0; i < sizeof *board; i++)
        bytes[i] = 0;
    (void)dxl_fresh(board->table, sizeof board->table); /* it refuses only another size */
}

/* dxl_board_feed_parts on a board; stores the registered write. */
static inline struct dxl_board_step dxl_board_feed(struct dxl_board *board, const uint8_t *chunk, size_t n)
{
    struct dxl_board_step step =
        dxl_board_feed_parts(board->held, &board->count, chunk, n, board->packet, board->table, board->registered);
    board->registered = step.registered;
    return step;
}

/* dxl_board_gap_parts on a board, likewise. */
static inline struct dxl_board_step dxl_board_gap(struct dxl_board *board)
{
    struct dxl_board_step step = dxl_board_gap_parts(board->held, &board->count, board->packet, board->table, board->registered);
    board->registered = step.registered;
    return step;
}

/*
 * Writes the status packet of a reply to the start of out; nothing for silence.
 *
 * Returns its byte count, 11 to 21 for a reply that a call returned and at most 22 for any other, 0 for silence, or, even for
 * silence,
 *   -11  the reply's ID is above 252
 *   -12  its count is above 8
 *   -24  n_out is below 32
 *
 * The bytes after the status are unchanged; after silence or a refusal all of out is.
 */
int64_t dxl_status(struct dxl_reply reply, uint8_t *out, size_t n_out);

/* ---- a device in single calls ---- */

/*
 * What a board's calls do, in separate calls: the reader finds a packet, and another call carries it out. You have more to keep, so
 * use them only if you want
 * - packets as they were received, for a trace: a board's buffer has the body without stuffing;
 * - the status at once, from the call that carries out the instruction: dxl_exchange;
 * - another protocol: the readers of the old boards, and your own code for their instructions.
 *
 *     static struct dxl_reply carry_out(struct dxl_step step)
 *     {
 *         struct dxl_carried carried;
 *         if (step.kind == DXL_PACKET)
 *             carried = dxl_carry_out_packet(table, sizeof table, registered, packet, step.count, body, sizeof body);
 *         else
 *             carried = dxl_carry_out(table, sizeof table, registered, step.kind, step.id, body, 0);
 *         if (carried.refusal != 0)
 *             refused((int)-carried.refusal);
 *         registered = carried.registered;      // without this no Action finds its write
 *         return carried.reply;
 *     }
 *
 * With a step of dxl_reader_feed or dxl_reader_gap this does what dxl_board_feed or dxl_board_gap does.
 */

/* What a reader's call returns. */
struct dxl_step {
    size_t taken; /* how many bytes of the chunk were taken; 0 from a gap call */
    size_t count; /* DXL_PACKET: the packet's byte count, 10 to 1,031, of an old board 6 to 259; otherwise 0 */
    uint8_t kind; /* DXL_NO_EVENT, DXL_PACKET, DXL_BAD_CHECKSUM, or DXL_BAD_READER if the call is refused */
    uint8_t id;   /* DXL_PACKET, DXL_BAD_CHECKSUM: the packet's ID, 0 to 252 or 254, in Protocol 1.0 also 253; otherwise 0 */
};

/*
 * The reader finds the packets in the bytes of the line, whatever noise is between them and however they are cut into chunks. It
 * reads a segment, the bytes between two gaps, from its first byte on:
 * - A well-formed packet is an event, and reading goes on after it.
 * - If header, ID and length are right, all bytes are there and the checksum is wrong, that is an event too, and reading goes on at
 *   the next byte: a packet inside a damaged one is found.
 * - Anything else is skipped byte by byte, without an event.
 *
 * The caller owns the reader's record, which lives as long as the device.
 * - To start, set its count to 0; its bytes may be anything.
 * - After that only the reader's calls write it. They keep the count at 1,030 or less and set the bytes past it to 0. Any other
 *   record with a count of 1,030 or less is accepted too: its first count bytes are held, the others are ignored.
 * - Make one call at a time on one record.
 *
 * Pass the received bytes to dxl_reader_feed, chunk by chunk, until it returns DXL_NO_EVENT. After a silence of more than 1.5 ms,
 * which the caller measures, end the segment with dxl_reader_gap. dxl_feed and dxl_gap are the same two calls for a record whose
 * parts are kept apart. No bytes on the line make any of these calls refuse.
 */

/* The reader's record: the first count bytes are held. */
struct dxl_reader {
    uint8_t bytes[1030];
    size_t count;
};

/*
 * Feeds a chunk: reads the held bytes and then the chunk, up to the next event.
 *
 * reader     the record
 * chunk, n   the received bytes; any bytes, any number of them
 * packet     receives the packet of a DXL_PACKET event
 *
 * Returns the next event. taken is the fewest bytes of the chunk that decide it, possibly 0; feed the others again. If no event is
 * decided, the kind is DXL_NO_EVENT, and all n bytes are taken.
 *
 * Call it with the rest of the chunk until it returns DXL_NO_EVENT or is refused, even if the rest is empty: the held bytes may
 * contain several events, and a loop that stops when all bytes are taken leaves them there.
 *
 * A packet in which one byte, or two adjacent bytes, were changed between length field and checksum is never a DXL_PACKET: when
 * reading reaches it, it is a DXL_BAD_CHECKSUM with the packet's ID.
 *
 * A DXL_PACKET event writes the packet as received to packet, followed by 0 up to 1,031 bytes. With DXL_BAD_CHECKSUM and
 * DXL_NO_EVENT packet becomes all 0. After an event the reader holds all bytes taken so far from where reading goes on; after
 * DXL_NO_EVENT it holds the beginning of what may become a packet, or nothing.
 *
 * Refused with kind DXL_BAD_READER if the record's count is above 1,030: taken, count and id are 0, and record and packet are
 * unchanged.
 */
struct dxl_step dxl_reader_feed(struct dxl_reader *reader, const uint8_t *chunk, size_t n, uint8_t packet[1031]);

/*
 * Ends the segment: returns the next event in the held bytes, as no more bytes follow, or DXL_NO_EVENT if nothing is left.
 *
 * Call it when the line has been silent for more than 1.5 ms, until it returns DXL_NO_EVENT or is refused. With DXL_NO_EVENT the
 * gap is finished, and the reader holds nothing. Bytes fed before that join those still held. Without gap calls a packet behind
 * noise may come out only when 1,030 bytes have followed the noise.
 *
 * It writes packet and record, and is refused, like dxl_reader_feed; taken is always 0.
 */
struct dxl_step dxl_reader_gap(struct dxl_reader *reader, uint8_t packet[1031]);

/* The same two calls on a record in two parts: held is its bytes, *count its count. A board has these parts too. */
struct dxl_step dxl_feed(uint8_t held[1030], size_t *count, const uint8_t *chunk, size_t n, uint8_t packet[1031]);
struct dxl_step dxl_gap(uint8_t held[1030], size_t *count, uint8_t packet[1031]);

/* What a call of the device returns. */
struct dxl_answer {
    int64_t count; /* the status packet's bytes, 0 for silence, or minus the number of a refusal */
    size_t slot;   /* when to send it, as in struct dxl_reply; 0 for silence and for a refusal */
    struct dxl_registered registered; /* the registered write from now on; unchanged if the call is refused */
};

/*
 * Carries out what was heard on the line, and writes the status packet that replies to it.
 *
 * table, n_table   the control table, filled by dxl_fresh; any other contents are accepted, except those that 22 refuses
 * registered       the registered write
 * kind             DXL_PACKET: a packet; DXL_BAD_CHECKSUM: a packet with a wrong checksum; any other kind: nothing was heard, and
 *                  the device is silent
 * id               the packet's ID; a packet neither to the table's ID nor to 254 changes nothing and gets no reply
 * body, n_body     DXL_PACKET: the unstuffed body, instruction and parameters, any number of bytes; otherwise ignored
 * reply, n_reply   the buffer for the status packet
 *
 * Returns the status packet's byte count, 11 to 21, with its slot, 0 for silence, or
 *   -21  n_table is not 136
 *   -22  the table's ID (byte 7) is above 252
 *   -23  the registered write's count is above 8
 *   -24  n_reply is below 32, even if the device would be silent
 *
 * The instruction changes the table. If it is refused with an error in the status, the table is unchanged, except that Action
 * drops the registered write it found and sets byte 69 to 0. The status packet starts at byte 0 of reply, and the bytes after it
 * are unchanged; after silence all of reply is.
 *
 * Action carries out a registered write only if the min and max position in the table are those at which it was registered.
 * Otherwise the write is dropped with DXL_ERROR_DATA_LIMIT, whatever it would write: a master that moves the limits registers
 * again.
 *
 * On a table filled by dxl_fresh and changed only by calls of this library, the goal position is never below the min position nor
 * above the max position, whatever was heard. A write of the limits that would leave it outside is refused with
 * DXL_ERROR_DATA_LIMIT. After dxl_fresh, Reboot and Factory Reset the goal position is the min position, so the min position can be
 * raised only after the goal position has moved.
 */
struct dxl_answer dxl_device(uint8_t *table, size_t n_table, struct dxl_registered registered, uint8_t kind, uint8_t id,
                             const uint8_t *body, size_t n_body, uint8_t *reply, size_t n_reply);

/*
 * dxl_unstuff and dxl_device in one call: the device hears a packet as it was received.
 *
 * table, n_table, registered, reply, n_reply   as for dxl_device
 * packet, n_packet   the packet's bytes from its header to its checksum, as the reader's calls write them; n_packet is their
 *                    count. Bytes that are not exactly one well-formed packet change no table and get no reply. A bad checksum
 *                    has no bytes to pass on: give its kind to dxl_device
 * body, n_body       a buffer for the unstuffed body; DXL_MAX_BODY bytes are enough for every packet from the reader
 *
 * Returns what dxl_device returns for DXL_PACKET, the packet's ID and the unstuffed body, or
 *   -14  the body, everything from byte 7 up to the last two bytes, is not well stuffed; never for a packet from the reader
 *   -13  the unstuffed body has more than n_body bytes
 *   -21 to -24, as dxl_device
 *
 * The unstuffed body is written to the start of body, even if the packet is for another device or gets no reply, and the bytes
 * after it are unchanged; if the call is refused, all of body is. table, reply and the registered write are as after dxl_device.
 */
struct dxl_answer dxl_exchange(uint8_t *table, size_t n_table, struct dxl_registered registered, const uint8_t *packet,
                               size_t n_packet, uint8_t *body, size_t n_body, uint8_t *reply, size_t n_reply);

/*
 * The device call in two, for a status that has to wait for its slot: dxl_carry_out or dxl_carry_out_packet carries out what was
 * heard and returns a small record of the reply, and dxl_status makes the packet when the slot has come. One straight after the
 * other equals dxl_device or dxl_exchange, for every input where these do not give 24. Where they do, the instruction has already
 * been carried out when dxl_status refuses the buffer: give it one of DXL_MIN_REPLY bytes.
 */

/* What a first call returns. */
struct dxl_carried {
    int64_t refusal;                  /* 0, or minus the number of a refusal */
    struct dxl_reply reply;           /* silence if the call is refused */
    struct dxl_registered registered; /* the registered write from now on; unchanged if the call is refused */
};

/*
 * Carries out what was heard on the line. table, n_table, registered, kind, id, body and n_body are as for dxl_device, and so are
 * -21, -22 and -23; a refused call leaves the table unchanged.
 */
struct dxl_carried dxl_carry_out(uint8_t *table, size_t n_table, struct dxl_registered registered, uint8_t kind, uint8_t id,
                                 const uint8_t *body, size_t n_body);

/*
 * Carries out a packet as it was received. The arguments are as for dxl_exchange, and so are -14, -13 and then -21 to -23; a
 * refused call leaves table and body unchanged.
 */
struct dxl_carried dxl_carry_out_packet(uint8_t *table, size_t n_table, struct dxl_registered registered, const uint8_t *packet,
                                        size_t n_packet, uint8_t *body, size_t n_body);

/* ---- packets and checksums ---- */

/*
 * Returns the checksum of n bytes, continuing an earlier one: polynomial x^16 + x^15 + x^2 + 1 (0x8005), highest bit first, no
 * final inversion.
 *
 * start   0 for the first bytes of a packet; otherwise the checksum of the bytes before
 *
 * The bytes may be in any number of separate parts: dxl_crc16(dxl_crc16(s, a, n), b, m) is the checksum from s of a followed by b,
 * for every s, even if either is empty. With n == 0 the result is start. examples/parts.c sends a packet this way.
 *
 * Checksums add: for byte strings of equal length, the checksum of their exclusive or, from the exclusive or of the starts, is
 * the exclusive or of their checksums.
 *
 * A packet's checksum starts from 0 and covers everything before it in the stuffed form, the header FF FF FD 00 included. It is
 * sent low byte first.
 *
 * Never refused; writes no memory.
 */
uint16_t dxl_crc16(uint16_t start, const uint8_t *bytes, size_t n);

/*
 * Returns the checksum of bytes in which chosen bits were flipped, without a new pass over the bytes.
 *
 * crc        their checksum before the flips, from any start
 * flips, n   a 1 for each flipped bit, in n bytes laid over n of those bytes
 * after      how many covered bytes follow these n; any number
 *
 * If crc is the checksum from some start of a, b and c joined, where b has n bytes and c has `after`, the result is the checksum
 * from that start of a, b with its bits flipped, and c joined.
 *
 * The time grows with n and with the number of binary digits of `after`, not with the bytes before and after the flips.
 *
 *     // bit 4 of the ID, byte 4 of a packet of which the checksum covers `covered` bytes
 *     const uint8_t flips[] = {0x10};
 *     crc = dxl_crc16_flipped(crc, flips, 1, covered - 5);
 *
 * Never refused; writes no memory.
 */
uint16_t dxl_crc16_flipped(uint16_t crc, const uint8_t *flips, size_t n, size_t after);

/*
 * Writes one packet into out, from offset at on: FF FF FD 00, the ID, the length (low byte first), the body and the checksum (low
 * byte first). The body is the instruction byte followed by params, stuffed: one FD is added after each FF FF FD in it, even one
 * that begins with the instruction. Length and checksum are those of the stuffed form.
 *
 * id            0 to 252, or 254 for all devices
 * instruction   any byte; 0x55 for a status packet, whose first parameter is the error byte
 * params        the parameters, not stuffed; any number of them
 * out, n_out    the output buffer
 * at            where in out the packet begins; any number, even past the end of out
 *
 * Returns the packet's byte count, 10 to 1,031, or
 *   -11  id is 253 or 255
 *   -12  the length would pass 1,024: the stuffed body has more than 1,022 bytes
 *   -13  out has fewer bytes from at on than the packet, or at lies past its end
 *
 * The bytes of out before at and after the packet are unchanged; if the call is refused, all of out is.
 */
int64_t dxl_encode(uint8_t id, uint8_t instruction, const uint8_t *params, size_t n_params, uint8_t *out, size_t n_out,
                   size_t at);

/*
 * Removes the stuffing of a body: writes it to the start of out without the FD after each FF FF FD.
 *
 * body, n_body   a packet's bytes from byte 7 (the instruction) up to its checksum; any bytes, any number of them
 * out, n_out     the output buffer; n_body bytes are always enough
 *
 * Returns the unstuffed byte count, or
 *   -14  body is not well stuffed: some FF FF FD in it is not followed by FD within the body
 *   -13  the unstuffed body has more than n_out bytes
 *
 * The bytes of out after the unstuffed body are unchanged; if the call is refused, all of out is.
 */
int64_t dxl_unstuff(const uint8_t *body, size_t n_body, uint8_t *out, size_t n_out);

/* ---- captures and logs ---- */

/* What dxl_next_event returns. If there is no event, every field is 0. */
struct dxl_event {
    size_t offset; /* where in the segment the event begins */
    size_t count;  /* DXL_PACKET: the packet's byte count, 10 to 1,031; otherwise 0 */
    size_t next;   /* where reading goes on: after the packet, or at offset + 1 after DXL_BAD_CHECKSUM */
    uint8_t kind;  /* DXL_NO_EVENT, DXL_PACKET or DXL_BAD_CHECKSUM */
    uint8_t id;    /* DXL_PACKET, DXL_BAD_CHECKSUM: the packet's ID, 0 to 252 or 254; otherwise 0 */
};

/*
 * The plain reader, for a whole segment in memory, such as a capture on a bench computer. It finds the next event at or after an
 * offset, by the same rule as the other reader, and keeps no bytes.
 *
 * segment, n   all bytes between two gaps; any bytes, any number of them
 * from         where to begin: 0, or next of the last event; any number, even past the end
 *
 * Returns the first event of the reading that begins at from, or DXL_NO_EVENT if there is none. The packet is the count bytes at
 * segment + offset. No more bytes follow, so an incomplete packet is skipped byte by byte.
 *
 *     struct dxl_event event = dxl_next_event(segment, n, 0);
 *     while (event.kind != DXL_NO_EVENT) {
 *         printf("%zu: kind %d, ID %d\n", event.offset, event.kind, event.id);
 *         event = dxl_next_event(segment, n, event.next);
 *     }
 *
 * For each event from <= offset < next <= n, so this loop ends. It gives the events that dxl_reader_feed and dxl_reader_gap give
 * for the same bytes, in the same order, however these are cut into chunks, once the gap is finished. A packet in which one byte,
 * or two adjacent bytes, were changed between length field and checksum is no packet here either.
 *
 * Never refused; writes no memory. examples/segment.c prints the events of a file this way.
 */
struct dxl_event dxl_next_event(const uint8_t *segment, size_t n, size_t from);

/*
 * A line log: many captured segments in one file, with an index that says for each ID which segment was the last with a packet for
 * it. All its numbers have 32 bits, low byte first.
 *
 *     bytes             numbers
 *     0 to 15           the count n of segments; 16; 254; 16 + 8 n
 *     16 on             for each segment its start in the file and its length
 *     16 + 8 n on       for each ID 0 to 252 and then for 254: 0, or 1 plus the number of the last segment, counted from 0,
 *                       that has a packet with that ID
 *     1,032 + 8 n on    the bytes of the segments, one directly after the other, to the end of the file
 *
 * A packet is what dxl_next_event finds; a bad checksum is none. A segment may be empty, and so may the log. A sound log is exactly
 * this, with at most 4,294,967,295 bytes.
 *
 * The tool dxl, which `make install` installs, makes these calls on files.
 */

/*
 * Writes the log of segments that lie one directly after the other.
 *
 * bytes, n              the bytes of all segments
 * lengths, n_segments   the length of each segment, in order; n_segments counts lengths, not bytes
 * out, n_out            the buffer for the log: DXL_LOG_FRONT + DXL_LOG_ENTRY * n_segments + n bytes are enough
 *
 * Returns the byte count of the log, or
 *   -31  the lengths do not add up to n, or the log would have more than 4,294,967,295 bytes
 *   -13  out has fewer bytes than the log
 *
 * The log is sound. The bytes of out after it are unchanged; if the call is refused, all of out is. The segments are read once and
 * copied once.
 */
int64_t dxl_log_write(const uint8_t *bytes, size_t n, const uint32_t *lengths, size_t n_segments, uint8_t *out, size_t n_out);

/*
 * Checks whether a file is a sound log.
 *
 * Returns 0 if it is, or
 *   -31  it is not laid out as a log: it is too long, a number in header or directory is wrong, bytes are missing or left over, or
 *        an index number is above the count of segments
 *   -34  the layout is right, but an index number does not match the segments
 *
 * It reads the segments once, and writes no memory.
 */
int64_t dxl_log_check(const uint8_t *log, size_t n);

/* What dxl_log_last returns. */
struct dxl_found {
    int64_t found;  /* 1 for a packet, 0 for none, or minus the number of a refusal */
    size_t segment; /* its number, from 0; 0 unless found is 1 */
    size_t offset;  /* where in that segment the packet begins; 0 unless found is 1 */
};

/*
 * Finds the last packet with an ID in a log: the last one in the last segment that has one.
 *
 * id   0 to 252, or 254: packets to all devices count for 254 only
 *
 * found is 1, or
 *   0    no packet: the index says so, or the segment it names has none
 *   -31  the file is not laid out as a log, see dxl_log_check
 *   -32  id is 253 or 255
 *
 * On a sound log the answer is that of reading every segment. On any log it depends only on header, directory, this ID's index
 * number and the one segment that it names; no other segment is read. The check of the layout reads the directory and all 254 index
 * numbers. It writes no memory.
 */
struct dxl_found dxl_log_last(const uint8_t *log, size_t n, uint8_t id);

/* What dxl_log_salvage returns. If count is negative, every other field is 0. */
struct dxl_salvaged {
    int64_t count;          /* the byte count of the log written, or minus the number of a refusal */
    size_t dropped;         /* how many entries of the directory were dropped: the report has that many places in use */
    size_t index_changed;   /* how many of the 254 index numbers differ from those in the file */
    size_t leftover;        /* how many bytes after the old index lie in no kept segment */
    uint8_t header_changed; /* 1 if the first 16 bytes differ from those of the file, else 0 */
};

/* Why an entry was dropped. */
enum {
    DXL_BAD_START = 1, /* it starts before the end of the old index, or before the end of the last entry kept */
    DXL_BAD_END = 2    /* it ends past the end of the file */
};

/*
 * Writes a sound log of what is whole in a log with its tail cut off or a wrong directory, and reports what was changed.
 *
 * log, n             the file, any bytes
 * out, n_out         the buffer for the new log: it must be as long as the file, which is always enough
 * report, n_report   two numbers for each dropped entry, in the directory's order: its number from 0, and why. n_report counts
 *                    numbers, and must be at least twice the count of entries: if n is at least DXL_LOG_FRONT,
 *                    2 * ((n - DXL_LOG_FRONT) / DXL_LOG_ENTRY) is always enough
 *
 * There are as many entries as the header says, or as the file has room for if that is less. The directory is read at 16 and the
 * index directly after it, whatever the header says. In the directory's order, an entry is kept if it starts at or after the end of
 * this index, at or after the end of the last entry kept, and ends within the file. The kept segments are copied one after the
 * other; header, directory and index are made new.
 *
 * Returns the byte count and the report, or with count
 *   -33  n is below 1,032 or above 4,294,967,295
 *   -13  n_out is below n, or n_report below twice the count of entries
 *
 * A sound log, and anything this call has written, comes out byte for byte, and every field but count is 0. The bytes of out after
 * the log and the unused places of the report are unchanged; if the call is refused, all of both are. None of the three may
 * overlap.
 */
struct dxl_salvaged dxl_log_salvage(const uint8_t *log, size_t n, uint8_t *out, size_t n_out, uint32_t *report, size_t n_report);

/* ---- plans of goals ---- */

/*
 * Writes the wanted goal positions of many devices to the start of out, as Sync Writes one after the other: rising IDs, 203 devices
 * in each packet but the last.
 *
 * goals, n_goals   253 numbers, one for each ID from 0 to 252: its goal, 0 to 4,095, or -1 if none is wanted
 * out, n_out       the output buffer; 1,293 bytes are always enough
 *
 * Returns the byte count, 0 if no goal is wanted, or
 *   -41  n_goals is not 253
 *   -42  a number is below -1 or above 4,095
 *   -13  out has too few bytes
 *
 * The bytes of out after the plan are unchanged; if the call is refused, all of out is. dxl_plan_check accepts every plan that this
 * call writes, and accepts none with fewer packets.
 */
int64_t dxl_plan(const int32_t *goals, size_t n_goals, uint8_t *out, size_t n_out);

/*
 * Checks that packets from any source set exactly these goals. A plan is accepted if it is packets one after the other and nothing
 * else, each a Sync Write of goal positions (four bytes at 116) to all devices, with at least one entry, that devices carry out,
 * and if all packets together have one entry for each wanted ID, with its goal, and none for another ID.
 *
 * Send an accepted plan with a gap before and after it. Then every device that hears it whole, without a refused call, has its goal
 * stored if one is wanted for it and its limits admit the goal; otherwise its table is unchanged.
 *
 * goals, n_goals   as for dxl_plan
 * plan, n_plan     any bytes, any number of them; if no goal is wanted, the plan is no bytes at all
 *
 * Returns 1 if it is accepted, 0 if not, or
 *   -41  n_goals is not 253
 *   -42  a number is below -1 or above 4,095
 *
 * It writes no memory.
 */
int64_t dxl_plan_check(const int32_t *goals, size_t n_goals, const uint8_t *plan, size_t n_plan);

/* ---- old boards ---- */

/*
 * Writes a packet of Protocol 1.0 or Mercury into out, from offset at on: FF FF, the ID, the length, the body and the checksum. The
 * body is the instruction, or the error byte of a status, followed by params, and is not stuffed. The length counts body and
 * checksum. The checksum is the low byte of the sum of all bytes from the ID to the end of the body, with every bit inverted.
 *
 * id            dxl_p1_encode: 0 to 253, or 254 for all devices; dxl_mercury_encode: 0 to 252, or 254
 * instruction   any byte; in a status packet the error byte
 * params        the parameters; any number of them
 * out, n_out    the output buffer
 * at            where in out the packet begins; any number, even past the end of out
 *
 * Returns the packet's byte count, 6 to 259, or
 *   -11  id is 255, or in Mercury also 253
 *   -12  the length would pass 255: there are more than 253 parameters
 *   -13  out has fewer bytes from at on than the packet, or at lies past its end
 *
 * The bytes of out before at and after the packet are unchanged; if the call is refused, all of out is.
 */
int64_t dxl_p1_encode(uint8_t id, uint8_t instruction, const uint8_t *params, size_t n_params, uint8_t *out, size_t n_out,
                      size_t at);
int64_t dxl_mercury_encode(uint8_t id, uint8_t instruction, const uint8_t *params, size_t n_params, uint8_t *out, size_t n_out,
                           size_t at);

/*
 * The readers of the old boards. They work on held bytes and their count as dxl_feed and dxl_gap do, for the packets that
 * dxl_p1_encode and dxl_mercury_encode write, with 259 instead of 1,031 and 258 instead of 1,030. A packet has 6 to 259 bytes. Its
 * body lies between byte 4 and the checksum, which is the last byte, and is not stuffed. Nothing is promised about changed bytes: a
 * sum does not show every change of two adjacent ones.
 *
 * FF is no ID, so of several FF only the last two may begin a packet. A line keeps to one protocol; a program that does not know
 * which may read it with two readers.
 *
 * Refused with kind DXL_BAD_READER if *count is above 258, even where dxl_feed would accept it. examples/old_boards.c has the loops
 * around these calls.
 */
struct dxl_step dxl_p1_feed(uint8_t held[258], size_t *count, const uint8_t *chunk, size_t n, uint8_t packet[259]);
struct dxl_step dxl_p1_gap(uint8_t held[258], size_t *count, uint8_t packet[259]);
struct dxl_step dxl_mercury_feed(uint8_t held[258], size_t *count, const uint8_t *chunk, size_t n, uint8_t packet[259]);
struct dxl_step dxl_mercury_gap(uint8_t held[258], size_t *count, uint8_t packet[259]);

/* ---- the library itself ---- */

/*
 * Returns the version of the library that is linked, as DXL_VERSION_NUMBER has it: another number means another header. Never
 * refused; writes no memory.
 */
uint32_t dxl_version(void);

#ifdef __cplusplus
}
#endif

#endif
