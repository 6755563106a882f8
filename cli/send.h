/* The command that talks to devices. */
#ifndef SEND_H
#define SEND_H

#include "words.h"

#define SEND_OPTIONS "--baud= --timeout= --retries= --hex -0 "

/* dxl send LINE COMMAND ... */
int send_command(const struct options *options, int n, char **words);

extern const char HELP_SEND[];

#endif
