/* An event in words, the same in `dxl show` and on a page of `dxl timeline`: ASCII without quotes and backslashes. */
#ifndef TEXT_H
#define TEXT_H

#include <stdio.h>

#include "events.h"

void put_event(FILE *to, const struct protocol *protocol, const struct event *event);
void put_status(FILE *to, const struct protocol *protocol, const struct event *event); /* without what it answers */
void put_totals(FILE *to, const struct totals *totals);
void put_who(FILE *to, int id); /* whom an event is about, in a column */
void put_bytes(FILE *to, const uint8_t *bytes, size_t n); /* in hex, with a space between */

/* One of > < ! ~ ? */
char sign_of(const struct event *event);

/* The one word for why noise is noise. */
const char *reason_word(enum reason why);

/* instruction, status, bad checksum, noise or missing status */
const char *kind_word(const struct event *event);

#endif
