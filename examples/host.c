#define _POSIX_C_SOURCE 200809L
#include "host.h"

#include <errno.h>
#include <stdio.h>
#include <stdlib.h>
#include <string.h>

volatile sig_atomic_t host_stopping;

void host_failed(const char *program, const char *what)
{
    fprintf(stderr, "%s: %s failed: %s\n", program, what, strerror(errno));
    exit(1);
}

static void stop(int number)
{
    (void)number;
    host_stopping = 1;
}

int host_catch_signals(void)
{
    struct sigaction action;
    memset(&action, 0, sizeof action);
    action.sa_handler = stop;
    return sigaction(SIGINT, &action, NULL) != 0 || sigaction(SIGTERM, &action, NULL) != 0 ? -1 : 0;
}

int32_t arm_towards(int32_t goal, int32_t position)
{
    int64_t way = (int64_t)goal - position;
    if (way > ARM_STEP)
        way = ARM_STEP;
    if (way < -ARM_STEP)
        way = -ARM_STEP;
    return position + (int32_t)way;
}
