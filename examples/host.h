/*
 * What the example boards need of a computer besides the line of pty_line.h: an end, and an arm that is simulated. Firmware has its
 * own motor in place of that.
 */
#ifndef HOST_H
#define HOST_H

#include <signal.h>
#include <stdint.h>

/* Says what the system refused, with errno, and ends the program with exit code 1. */
void host_failed(const char *program, const char *what);

/* SIGINT and SIGTERM set host_stopping from now on. Returns 0, or -1 with errno set. */
int host_catch_signals(void);
extern volatile sig_atomic_t host_stopping;

/* The arm's position a tick of ARM_TICK microseconds later. */
enum { ARM_TICK = 10000, ARM_STEP = 32 };
int32_t arm_towards(int32_t goal, int32_t position);

#endif
