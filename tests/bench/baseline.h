/*
 * The same work in plain C, to measure the exports by. Each function does what mednukals.h, or test_exports.h, says of its
 * namesake.
 */
#ifndef BASELINE_H
#define BASELINE_H

#include <stddef.h>
#include <stdint.h>

#include "mednukals.h"
#include "test_exports.h"

uint16_t baseline_crc16(uint16_t start, const uint8_t *bytes, size_t n);
uint16_t baseline_crc16_small(uint16_t start, const uint8_t *bytes, size_t n);

int64_t baseline_encode(uint8_t id, uint8_t instruction, const uint8_t *params, size_t n_params, uint8_t *out, size_t n_out,
                        size_t at);

int64_t baseline_p1_encode(uint8_t id, uint8_t instruction, const uint8_t *params, size_t n_params, uint8_t *out, size_t n_out,
                           size_t at);
int64_t baseline_mercury_encode(uint8_t id, uint8_t instruction, const uint8_t *params, size_t n_params, uint8_t *out, size_t n_out,
                                size_t at);

struct dxl_step baseline_feed(uint8_t held[1030], size_t *count, const uint8_t *chunk, size_t n, uint8_t packet[1031]);
struct dxl_step baseline_gap(uint8_t held[1030], size_t *count, uint8_t packet[1031]);
struct dxl_step baseline_reader_feed(struct dxl_reader *reader, const uint8_t *chunk, size_t n, uint8_t packet[1031]);
struct dxl_step baseline_reader_gap(struct dxl_reader *reader, uint8_t packet[1031]);
struct dxl_step baseline_p1_feed(uint8_t held[258], size_t *count, const uint8_t *chunk, size_t n, uint8_t packet[259]);
struct dxl_step baseline_p1_gap(uint8_t held[258], size_t *count, uint8_t packet[259]);
struct dxl_step baseline_mercury_feed(uint8_t held[258], size_t *count, const uint8_t *chunk, size_t n, uint8_t packet[259]);
struct dxl_step baseline_mercury_gap(uint8_t held[258], size_t *count, uint8_t packet[259]);
struct dxl_event baseline_next_event(const uint8_t *segment, size_t n, size_t from);

/* The question reads every segment; the test takes the layout for right. */
int64_t baseline_log_write(const uint8_t *bytes, size_t n, const uint32_t *lengths, size_t n_segments, uint8_t *out, size_t n_out);
int64_t baseline_log_check(const uint8_t *log, size_t n);
struct dxl_found baseline_log_last(const uint8_t *log, size_t n, uint8_t id);
struct dxl_salvaged baseline_log_salvage(const uint8_t *log, size_t n, uint8_t *out, size_t n_out, uint32_t *report, size_t n_report);
struct fed_value baseline_feed_value(const uint8_t held[1030], size_t count, const uint8_t *chunk, size_t n);

int64_t baseline_plan(const int32_t *goals, size_t n_goals, uint8_t *out, size_t n_out);
int64_t baseline_plan_check(const int32_t *goals, size_t n_goals, const uint8_t *plan, size_t n_plan);

int64_t baseline_fresh(uint8_t *table, size_t n);
int64_t baseline_measure(uint8_t *table, size_t n, int32_t position, uint8_t hardware_error);
struct dxl_answer baseline_device(uint8_t *table, size_t n_table, struct dxl_registered registered, uint8_t kind, uint8_t id,
                                  const uint8_t *body, size_t n_body, uint8_t *reply, size_t n_reply);
struct dxl_carried baseline_carry_out(uint8_t *table, size_t n_table, struct dxl_registered registered, uint8_t kind, uint8_t id,
                                      const uint8_t *body, size_t n_body);
struct dxl_carried baseline_carry_out_packet(uint8_t *table, size_t n_table, struct dxl_registered registered, const uint8_t *packet,
                                             size_t n_packet, uint8_t *body, size_t n_body);
/* What is heard is carried out. All of the reply is 0 for silence. An instruction's error goes to *number, answered or not. */
struct dxl_reply baseline_reply(uint8_t *table, struct dxl_registered *registered, uint8_t kind, uint8_t id, const uint8_t *body,
                                size_t n_body, uint8_t *number);
int64_t baseline_status(struct dxl_reply reply, uint8_t *out, size_t n_out);
struct dxl_answer baseline_exchange(uint8_t *table, size_t n_table, struct dxl_registered registered, const uint8_t *packet,
                                    size_t n_packet, uint8_t *body, size_t n_body, uint8_t *reply, size_t n_reply);

struct dxl_board_step baseline_board_feed_parts(uint8_t held[1030], size_t *count, const uint8_t *chunk, size_t n,
                                                uint8_t packet[1031], uint8_t table[136], struct dxl_registered registered);
struct dxl_board_step baseline_board_gap_parts(uint8_t held[1030], size_t *count, uint8_t packet[1031], uint8_t table[136],
                                               struct dxl_registered registered);

#endif
