/* The wanted goals of the tool dxl: a text file with a line for each device. */
#ifndef GOALS_H
#define GOALS_H

#include <stddef.h>
#include <stdint.h>

enum { IDS = 253, NO_GOAL = -1, MOST_GOAL = 4095 };

struct goals {
    int32_t of[IDS];  /* as dxl_plan takes them */
    size_t line[IDS]; /* where the ID stands in the file, from 1 on; 0 where it does not */
    size_t wanted;    /* how many goals */
};

void no_goals(struct goals *goals);

/* Whether the file was read; where not, it has said on standard error why, with the line. */
int read_goals(const char *name, struct goals *goals);

#endif
