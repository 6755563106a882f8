/*
 * The line of an example board, and its clock: a pseudo-terminal where a real board has a UART and a timer. Firmware has its own
 * in place of these calls.
 */
#ifndef PTY_LINE_H
#define PTY_LINE_H

#include <stddef.h>
#include <stdint.h>

struct line {
    int fd;        /* the board's end */
    int other;     /* the other end, kept open: the line stays when a program that used it has gone */
    char path[64]; /* the other end's name */
};

/* A time that never comes. */
#define LINE_NEVER INT64_MAX

/* Microseconds by a clock that never goes back. */
int64_t line_clock(void);

/* Opens a line that passes every byte unchanged, and prints its name, 'line: PATH'. Returns NULL, or what failed, with errno set. */
const char *line_open(struct line *line);

enum line_news {
    LINE_BYTES,  /* bytes may be read */
    LINE_TIME,   /* the time has come, and no byte is there */
    LINE_SIGNAL, /* a signal came */
    LINE_BROKEN  /* with errno set */
};

/* Waits for bytes, until the time comes. */
enum line_news line_wait(const struct line *line, int64_t until);

/* Reads what is there, at most n bytes. Returns the count, which may be 0, or -1 with errno set. */
int line_read(const struct line *line, uint8_t *bytes, size_t n);

/*
 * Sends n bytes. Returns 0, or -1 with errno set: EAGAIN if the line has taken no byte for LINE_PATIENCE. A wire takes bytes
 * whether somebody listens or not; a pseudo-terminal that nobody reads fills up.
 */
int line_send(const struct line *line, const uint8_t *bytes, size_t n);

enum { LINE_PATIENCE = 100000 }; /* microseconds */

#endif
