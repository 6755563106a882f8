/*
 * The planner and the test of plans from C: the example of the requirements, every refusal, and the buffer around the plan.
 */
#include <stdio.h>
#include <string.h>

#include "mednukals.h"

enum { IDS = 253, ROOM = 40 };

static int failed;

static void expect(const char *what, int64_t got, int64_t wanted)
{
    if (got != wanted) {
        fprintf(stderr, "plan: %s: %lld and not %lld\n", what, (long long)got, (long long)wanted);
        failed = 1;
    }
}

static void expect_bytes(const char *what, const uint8_t *got, const uint8_t *wanted, size_t n)
{
    if (memcmp(got, wanted, n) != 0) {
        fprintf(stderr, "plan: %s: other bytes\n", what);
        failed = 1;
    }
}

int main(void)
{
    static const uint8_t plan[] = {0xFF, 0xFF, 0xFD, 0x00, 0xFE, 0x11, 0x00, 0x83, 0x74, 0x00, 0x04, 0x00,
                                   0x03, 0x07, 0x00, 0x00, 0x00, 0x09, 0xFF, 0x00, 0x00, 0x00, 0x90, 0x10};
    int32_t goals[IDS];
    uint8_t out[ROOM], old[ROOM];
    for (size_t id = 0; id < IDS; id++)
        goals[id] = -1;
    memset(old, 0xAA, sizeof old);
    memset(out, 0xAA, sizeof out);

    expect("nothing wanted", dxl_plan(goals, IDS, out, sizeof out), 0);
    expect("no bytes where nothing is wanted", dxl_plan_check(goals, IDS, out, 0), 1);
    expect("a plan where nothing is wanted", dxl_plan_check(goals, IDS, plan, sizeof plan), 0);
    goals[3] = 7;
    goals[9] = 255;
    expect("no bytes where goals are wanted", dxl_plan_check(goals, IDS, out, 0), 0);
    expect("no room", dxl_plan(goals, IDS, out, sizeof plan - 1), -DXL_NO_ROOM);
    expect("a short list", dxl_plan(goals, IDS - 1, out, sizeof out), -DXL_NOT_GOALS);
    expect("a short list", dxl_plan_check(goals, IDS - 1, plan, sizeof plan), -DXL_NOT_GOALS);
    expect_bytes("refused", out, old, sizeof out);

    expect("two goals", dxl_plan(goals, IDS, out, sizeof out), (int64_t)sizeof plan);
    expect_bytes("two goals", out, plan, sizeof plan);
    expect_bytes("behind the plan", out + sizeof plan, old, sizeof out - sizeof plan);
    expect("the plan", dxl_plan_check(goals, IDS, out, sizeof plan), 1);
    expect("a byte behind it", dxl_plan_check(goals, IDS, out, sizeof plan + 1), 0);
    goals[9] = 256;
    expect("another goal", dxl_plan_check(goals, IDS, out, sizeof plan), 0);
    goals[9] = 4096;
    expect("a bad goal", dxl_plan(goals, IDS, out, 0), -DXL_BAD_GOAL);
    expect("a bad goal", dxl_plan_check(goals, IDS, out, sizeof plan), -DXL_BAD_GOAL);
    return failed;
}
