/* What the tool dxl says, and how it ends. */
#ifndef SAY_H
#define SAY_H

#include <stdio.h>

/* How the program ends. */
enum {
    DONE = 0,
    NO = 1,     /* the answer is no: not sound, no packet, not accepted */
    USAGE = 2,  /* words that it does not know */
    FAILED = 3, /* a file that cannot be read or written, or a refusal */
    ALTERED = 4 /* a salvage that has altered or dropped something */
};

/* dxl: NAME: why. Returns 0. */
int say_failure(const char *name, const char *why);

/* dxl: NAME:LINE: why. Returns 0. */
int say_line(const char *name, size_t line, const char *why);

/* A name as it is, but for what would control a terminal and what is not UTF-8: that is written \xNN. */
void put_name(FILE *to, const char *name);

/* How many bytes the character at the start of the text has, if it can be printed as it is; else 0. */
size_t printable(const char *text);

/* The status, where all that was printed has got out; else FAILED, and it is said why. */
int printed(int status);

#endif
