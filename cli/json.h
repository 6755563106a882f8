/* An event as a JSON object in one line. */
#ifndef JSON_H
#define JSON_H

#include <stdio.h>

#include "events.h"

void put_json(FILE *to, const char *file, const struct options *options, const struct event *event);

/* A name between quotes; what is not printable is \xNN, as elsewhere. */
void put_json_name(FILE *to, const char *name);

#endif
