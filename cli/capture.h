/* A capture as the line brought it: its bytes in blocks, with their times where it has some, and the gaps between them. */
#ifndef CAPTURE_H
#define CAPTURE_H

#include "words.h"

enum { BLOCK = 65536, TOKEN = 4096 };

struct block {
    uint8_t bytes[BLOCK];
    int64_t times[BLOCK]; /* when each byte began, in nanoseconds; only of a capture with times */
    size_t n;
    int gap; /* the line was silent behind these bytes; so it is where the capture ends */
    int end; /* no block follows */
};

struct capture {
    const char *name;
    int file;          /* -1 where the bytes are in memory */
    int text, timed;   /* hex in lines; and each line begins with a time */
    int decided;       /* whether it does is known */
    int broken;        /* a line of the text is wrong, and it was said */
    uint64_t segment;  /* the number of the first segment */
    int64_t gap, byte_time;
    const uint8_t *at; /* what was read, or the memory */
    size_t left;
    uint64_t done, whole; /* bytes of the file read so far, and all of them; 0 where that is not known */
    size_t line, field, digit; /* where in the text: the line from 1 on, the field in it from 0 on, the next digit of the token */
    char token[TOKEN + 1];
    int64_t line_time, time, last; /* of the line, of the byte that comes next, and of the one before */
    int begins;                    /* no byte of the line has come yet */
    int carried, begun; /* a byte that stands behind a gap, or -1; whether there was a byte at all */
    uint8_t input[BLOCK];
};

/* Opens a file, or for - standard input. Whether that was done; where not, it has said why. */
int open_capture(const char *name, const struct options *options, struct capture *capture);

/* A capture of raw bytes that are in memory. */
void open_memory(const char *name, const uint8_t *bytes, size_t n, struct capture *capture);

/* The next block; whether that was done. */
int next_block(struct capture *capture, struct block *block);

void close_capture(struct capture *capture);

#endif
