/* What comes over the line, for the benchmark and for the counts: the same bytes in every run. */
#ifndef LINES_H
#define LINES_H

#include <stddef.h>
#include <stdint.h>

/* Bytes at random, from a fixed seed. */
void draw(uint8_t *bytes, size_t n);

/* The parameters of a packet of 1,031 bytes, with ten places to stuff in them. */
enum { LONGEST_PARAMS = 1011 };
void draw_longest(uint8_t params[LONGEST_PARAMS]);

enum {
    PACKETS_OF_14,
    MIXED_PACKETS,
    WORST_NOISE,
    RANDOM_BYTES,
    ALL_00,
    RANDOM_HEADER_BYTES,
    ALL_FF,
    REPEATED_FF_FF_FD,
    LINES
};

struct line_kind {
    const char *name;
    size_t (*fill)(uint8_t *line, size_t n); /* writes at most n bytes, and answers how many */
};

extern const struct line_kind lines[LINES];

/* Packets of Protocol 1.0 with ten bytes, one after the other; at most n bytes, and the answer is how many. */
size_t packets_v1(uint8_t *line, size_t n);

/* Fronts three bytes apart, each promising the longest packet of Protocol 1.0 by the next one's first FF, likewise. */
size_t worst_noise_v1(uint8_t *line, size_t n);

/* A line on which one call judges 112 packets and tells none of them: about 57,000 bytes of checksum. */
enum { WORST_CALL = 1015 };
void worst_call(uint8_t line[WORST_CALL]);

#endif
