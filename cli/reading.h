/* What a capture holds, in order: the library's events with their offsets, and what was passed over as noise. */
#ifndef READING_H
#define READING_H

#include "capture.h"

enum kind { PACKET, BAD_CHECKSUM, NOISE };

/* Why a beginning of a packet became none; `dxl show --help` says what each means. */
enum reason { NO_BEGINNING, WRONG_HEADER, WRONG_ID, WRONG_LENGTH, WRONG_STUFFING, CUT_OFF };

/* The beginning of a packet in noise. */
struct beginning {
    enum reason why;
    uint64_t offset;
    size_t agreed;    /* how many bytes agree with a packet */
    size_t announced; /* how many its length announces; 0 where it has none that is good */
    uint8_t front[8]; /* its bytes up to the end of the length, as far as they are there */
};

/* How many bytes of noise are kept. */
enum { SHOWN_NOISE = 32 };

struct item {
    enum kind kind;
    uint64_t segment;        /* its number, from 0 */
    uint64_t offset, length; /* in the capture; a bad checksum has the length that it announces */
    uint8_t id;              /* of a packet or a bad checksum */
    const uint8_t *bytes;    /* all of them; of noise the first SHOWN_NOISE */
    size_t n;
    int timed;
    int64_t first, last; /* when it began and ended, in nanoseconds; without --baud a byte takes no time */
    struct beginning longest; /* in noise */
    int inside;               /* the packet or bad checksum begins inside the bytes of the bad checksum at `outer` */
    uint64_t outer;
};

/* Hands each item of the capture to `hear`, until that returns 0. Whether the capture was read to its end, or to where hear said so;
 * where not, it has said why. The memory needed does not grow with the capture. */
int read_items(struct capture *capture, const struct protocol *protocol, int (*hear)(void *, const struct item *), void *hearer,
               uint64_t *total);

/* The same block by block, for bytes that come from a line; null where there is no memory. */
struct listener;
struct listener *begin_listening(const struct protocol *protocol, int (*hear)(void *, const struct item *), void *hearer);
void hear_block(struct listener *listener, const struct block *block);

#endif
