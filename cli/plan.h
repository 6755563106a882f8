/* The commands for plans of goals. */
#ifndef PLAN_H
#define PLAN_H

#include "files.h"
#include "goals.h"

/* dxl plan, with the words behind it */
int plan_command(int n, char **words);

/* Reads a plan, as `dxl plan check` does, and tests it: nothing but goals is in it, and each device once. Returns how the program ends;
 * where that is not 0, it has said why. */
int read_tested_plan(const char *name, struct mapped *plan, struct goals *goals, size_t *packets);

#endif
