/* A master: sends an instruction on a line, and prints the statuses that answer it. */
#ifndef MASTER_H
#define MASTER_H

#include "events.h"
#include "serial.h"
#include "words.h"

struct request {
    uint8_t id, instruction;
    uint8_t params[DXL_MAX_BODY + 9]; /* with room for the entry of a list that makes them too long */
    size_t n;
};

struct master {
    struct serial line;
    const struct options *options;
    struct teller *teller;
    struct totals totals;
    uint8_t packet[DXL_MAX_PACKET]; /* the instruction, as it was sent last */
    size_t n;
    uint64_t asked;                   /* its offset in all that was on the line; of an echo, that */
    uint8_t wanted[DXL_BROADCAST_ID]; /* who has not answered it */
    size_t left, found;               /* how many of them, and how many have answered */
    int refused, damaged;             /* a status had an error; a bad checksum or noise came */
    int last, again;                  /* the last try; a device has asked for another one, by error 03 */
    int missed;                       /* an answer has not come in time, and may come yet */
    int broken;                       /* the line has failed */
    int scanning, patient;            /* every ID is asked; now one that has answered late before */
    uint8_t state[DXL_BROADCAST_ID];  /* what a scan knows of each ID */
};

/* Opens the line. Whether that was done; where not, it has said why. */
int begin_master(const char *line, const struct options *options, struct master *master);
void end_master(struct master *master);

/* Each of these returns how the program ends, and has said why that is not 0: NO where a device refuses, FAILED where one that has to
 * answer does not, even if another one refuses, and where the line fails. */
int exchange(struct master *master, const struct request *request);
int scan(struct master *master);
int send_plan(struct master *master, const uint8_t *plan, size_t n);

#endif
