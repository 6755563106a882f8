/* A capture as a page for a browser. */
#ifndef TIMELINE_H
#define TIMELINE_H

#include "words.h"

/* dxl timeline FILE */
int timeline_command(const struct options *options, int n, char **words);
extern const char HELP_TIMELINE[];

#endif
