/* The events of a capture with their meaning: each status beside the instruction that it answers, and statuses that are missing. */
#ifndef EVENTS_H
#define EVENTS_H

#include "meaning.h"
#include "reading.h"

/* What a status answers. */
enum answers { NO_ANSWER, TO_INSTRUCTION, TO_BAD_CHECKSUM };

struct event {
    const struct item *item;       /* null for a missing status */
    const struct meaning *meaning; /* of a packet; of a bad checksum what it would be, or null */
    uint64_t offset;               /* of a missing status: where somebody stopped waiting for it */
    int id;                        /* the ID that it is about; -1 for noise */
    enum answers answers;          /* of a status */
    uint64_t asked;                /* the offset of what it answers; of a missing status, of what was not answered */
    const char *asked_name;        /* the instruction's name */
    int64_t delay;                 /* nanoseconds from the end of what it answers to its begin, where the item has times */
    int64_t time;                  /* when it began, likewise; of a missing status, when somebody stopped waiting */
    int damaged;                   /* of a missing status: a bad checksum with its ID stands at `damaged_at` */
    uint64_t damaged_at;
};

struct totals {
    uint64_t bytes, packets, bad, noise, missing, errors; /* bytes passed over in noise; statuses with an error or the alert */
    int timed;
    int64_t first, last;
};

/* Hands each event to `hear`, until that returns 0. Whether the capture could be read; where not, it has said why. */
int read_events(struct capture *capture, const struct protocol *protocol, int (*hear)(void *, const struct event *), void *hearer,
                struct totals *totals);

/* The same block by block, for bytes that come from a line, those sent among them; null where there is no memory. */
struct teller;
struct teller *begin_telling(const struct protocol *protocol, int (*hear)(void *, const struct event *), void *hearer,
                             struct totals *totals);
void tell_block(struct teller *teller, const struct block *block);
void end_telling(struct teller *teller);

/* Whether the event has something to do with an ID: it is for it, from it, or lists it. */
int is_about(const struct event *event, int id);

/* Whether something went wrong: noise, a bad checksum, a status with an error or the alert, a missing status. */
int is_trouble(const struct event *event);

#endif
