/* A board that hears fixed lines, for the benchmark and for the counts: by the one call, and by the loop of single calls. */
#ifndef BOARD_H
#define BOARD_H

#include <stddef.h>
#include <stdint.h>

#include "mednukals.h"

/* What comes over the line, and what comes of it on a fresh table. */
struct board_line {
    const char *name;
    size_t (*fill)(uint8_t *line, size_t n); /* writes at most n bytes, and answers how many */
    size_t chunk;                            /* so many bytes come at once; 0: all of them */
    int64_t events;
    uint8_t error, goal; /* the error byte of the last status, and the lowest byte of the goal position */
};

enum { BOARD_LINES = 11 };
extern const struct board_line board_lines[BOARD_LINES];

/* The calls of a loop. */
struct one_call {
    struct dxl_board_step (*feed)(uint8_t held[1030], size_t *count, const uint8_t *chunk, size_t n, uint8_t packet[1031],
                                  uint8_t table[136], struct dxl_registered registered);
    struct dxl_board_step (*gap)(uint8_t held[1030], size_t *count, uint8_t packet[1031], uint8_t table[136],
                                 struct dxl_registered registered);
};

struct single_calls {
    struct dxl_step (*feed)(uint8_t held[1030], size_t *count, const uint8_t *chunk, size_t n, uint8_t packet[1031]);
    struct dxl_step (*gap)(uint8_t held[1030], size_t *count, uint8_t packet[1031]);
    int64_t (*unstuff)(const uint8_t *body, size_t n_body, uint8_t *out, size_t n_out);
    struct dxl_carried (*carry_out)(uint8_t *table, size_t n_table, struct dxl_registered registered, uint8_t kind, uint8_t id,
                                    const uint8_t *body, size_t n_body);
};

/* What the loops work on; only the single calls need a body buffer. In one struct, so that it lies in the same order for every
 * compiler. */
struct board_memory {
    struct dxl_board board;
    uint8_t body[DXL_MAX_BODY];
};
extern struct board_memory board_memory;

/* What a loop was told: how many events, or minus a refusal; the error byte of the last status; all answers mixed. */
struct outcome {
    int64_t events;
    uint8_t error;
    uint16_t mixed;
};

/* The line in chunks. */
struct outcome feed_by_one(const struct one_call *calls, const uint8_t *line, size_t n, size_t chunk);
struct outcome feed_by_single(const struct single_calls *calls, const uint8_t *line, size_t n, size_t chunk);

/* The end of a segment, on the bytes that are held. */
struct outcome gap_by_one(const struct one_call *calls);
struct outcome gap_by_single(const struct single_calls *calls);

/* Whether two one calls answer the same to the line, on fresh boards of their own, and leave the same in every byte. */
int boards_alike(const struct one_call *a, const struct one_call *b, const uint8_t *line, size_t n, size_t chunk);

#endif
