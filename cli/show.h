/* Lines for the events of captures. */
#ifndef SHOW_H
#define SHOW_H

#include "capture.h"

/* The options of `dxl show` that speak of what is printed, and those that speak of a capture. */
#define PRINT_OPTIONS "--hex --json --errors --id= --protocol= "
#define CAPTURE_OPTIONS "--gap= --baud= --raw "

/* Prints the events of a capture, and closes it. Returns how the program ends, but for what was printed and has not got out yet. */
int show_capture(struct capture *capture, const struct options *options);

/* dxl show FILE... */
int show_command(const struct options *options, int n, char **words);

extern const char HELP_SHOW[];

#endif
