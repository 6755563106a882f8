/* The commands for line logs. */
#ifndef LOG_H
#define LOG_H

#include "words.h"

/* dxl log, with the words behind it */
int log_command(int n, char **words);

/* dxl log salvage LOG OUT */
int log_salvage(const struct options *options, int n, char **words);
extern const char HELP_SALVAGE[];

#endif
