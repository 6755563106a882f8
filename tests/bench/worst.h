/* For each export one call on the input that costs it the most, for the counts on x86-64 and on a Cortex-M0. */
#ifndef WORST_H
#define WORST_H

#include <stdint.h>

struct worst_case {
    const char *export, *input;
    void (*begin)(void);
    int64_t (*call)(void);
    int64_t answer; /* what the call is to answer */
};

enum { WORST_CASES = 30 };
extern const struct worst_case worst_cases[WORST_CASES];

#endif
