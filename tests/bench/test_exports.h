/* The exports of libmednukals_test.a that the benchmark calls. */
#ifndef TEST_EXPORTS_H
#define TEST_EXPORTS_H

#include <stddef.h>
#include <stdint.h>

#include "mednukals.h"

/* What a feeding call by value gives: its answer, the packet's bytes followed by 0, and the record from now on. */
struct fed_value {
    struct dxl_step step;
    uint8_t packet[DXL_MAX_PACKET];
    struct dxl_reader reader;
};

/* As dxl_crc16, by a table of sixteen numbers: what it is in libmednukals_small.a. */
uint16_t dxl_test_crc16_small(uint16_t start, const uint8_t *bytes, size_t n);

/* As dxl_crc16, without a table: what it is in libmednukals_fold.a. */
uint16_t dxl_test_crc16_fold(uint16_t start, const uint8_t *bytes, size_t n);

/* A feeding call by value, on a record that is made of the held bytes and their count. */
struct fed_value dxl_test_feed_value(const uint8_t held[1030], size_t count, const uint8_t *chunk, size_t n);

#endif
