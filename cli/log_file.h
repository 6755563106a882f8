/* What a file says of itself as a log, and what is wrong with it. */
#ifndef LOG_FILE_H
#define LOG_FILE_H

#include "files.h"
#include "mednukals.h"

enum { LOG_FAULT = 160, LOG_HEADER = 16, LOG_INDEX = 254 };

/* A number of a log: four bytes, low byte first. */
uint32_t number_at(const uint8_t *bytes);

/* The start of a segment in the file, and four bytes behind it its length. */
const uint8_t *entry_at(const struct mapped *log, uint32_t segment);

/* What a refusal means. */
const char *reason(int64_t refusal);

/* The first thing that is wrong with a log that dxl_log_check has refused. That answer alone decides; this says why. */
void find_fault(const struct mapped *log, int64_t refusal, char why[LOG_FAULT]);

/* Says why a log was refused, and returns 0. */
int refuse_log(const char *name, const struct mapped *log, int64_t refusal);

#endif
