/*
 * Stands between an example board and the library, by the linker's --wrap: the call that REFUSING names, in the environment,
 * answers the refusal REFUSAL; all others go on to the library. Nothing that comes over the line makes a call of the board
 * refuse, and so this shows what the board does then.
 *
 * The inline functions of the header are compiled into the board, and no name of theirs reaches the linker: what is wrapped is the
 * call within, dxl_board_feed_parts of dxl_board_feed.
 */
#include <stdlib.h>
#include <string.h>

#include "mednukals.h"

static int64_t refusal(const char *call)
{
    const char *name = getenv("REFUSING"), *number = getenv("REFUSAL");
    return name != NULL && number != NULL && strcmp(name, call) == 0 ? strtol(number, NULL, 10) : 0;
}

/* The linker sends the board's calls of NAME to __wrap_NAME, and calls of __real_NAME to the library. */
#define DECLARE(answer, name, parameters) \
    answer __real_##name parameters;      \
    answer __wrap_##name parameters;      \
    answer __wrap_##name parameters

/* A call that answers a count or minus a refusal. */
#define COUNT(name, parameters, arguments)                      \
    DECLARE(int64_t, name, parameters)                          \
    {                                                           \
        int64_t number = refusal(#name);                        \
        return number != 0 ? -number : __real_##name arguments; \
    }

/* A reader's call. */
#define STEP(name, parameters, arguments)                          \
    DECLARE(struct dxl_step, name, parameters)                     \
    {                                                              \
        struct dxl_step step = {0, 0, (uint8_t)refusal(#name), 0}; \
        return step.kind != 0 ? step : __real_##name arguments;    \
    }

/* A call on a board, with all of its step 0 but the registered write. */
#define BOARD_STEP(name, parameters, arguments)                 \
    DECLARE(struct dxl_board_step, name, parameters)            \
    {                                                           \
        static const struct dxl_board_step nothing;             \
        struct dxl_board_step step = nothing;                   \
        step.kind = (uint8_t)refusal(#name);                    \
        step.registered = registered;                           \
        return step.kind != 0 ? step : __real_##name arguments; \
    }

COUNT(dxl_encode,
      (uint8_t id, uint8_t instruction, const uint8_t *params, size_t n_params, uint8_t *out, size_t n_out, size_t at),
      (id, instruction, params, n_params, out, n_out, at))
COUNT(dxl_measure, (uint8_t *table, size_t n, int32_t position, uint8_t hardware_error), (table, n, position, hardware_error))
COUNT(dxl_status, (struct dxl_reply reply, uint8_t *out, size_t n_out), (reply, out, n_out))
STEP(dxl_reader_feed, (struct dxl_reader *reader, const uint8_t *chunk, size_t n, uint8_t packet[1031]), (reader, chunk, n, packet))
STEP(dxl_reader_gap, (struct dxl_reader *reader, uint8_t packet[1031]), (reader, packet))
BOARD_STEP(dxl_board_feed_parts,
           (uint8_t held[DXL_MAX_HELD], size_t *count, const uint8_t *chunk, size_t n, uint8_t packet[DXL_MAX_PACKET],
            uint8_t table[DXL_TABLE_BYTES], struct dxl_registered registered),
           (held, count, chunk, n, packet, table, registered))
BOARD_STEP(dxl_board_gap_parts,
           (uint8_t held[DXL_MAX_HELD], size_t *count, uint8_t packet[DXL_MAX_PACKET], uint8_t table[DXL_TABLE_BYTES],
            struct dxl_registered registered),
           (held, count, packet, table, registered))
