/* Plans of goals in plain C: packets are written and taken apart in one pass, with a mark for each ID. */
#include <string.h>

#include "baseline.h"

enum { IDS = 253, MOST = 203, ENTRY = 5, FRONT = 12, AROUND = 14 };

/* Header, ID 254, the length, which is put in later, and Sync Write at 116 with length 4. */
static const uint8_t front[FRONT] = {0xFF, 0xFF, 0xFD, 0x00, 0xFE, 0, 0, 0x83, 116, 0, 4, 0};

static int64_t goals_refusal(const int32_t *goals, size_t n_goals)
{
    if (n_goals != IDS)
        return -DXL_NOT_GOALS;
    for (size_t id = 0; id < IDS; id++)
        if (goals[id] < -1 || goals[id] > 4095)
            return -DXL_BAD_GOAL;
    return 0;
}

/* The front before the entries and the checksum behind them. */
static void close_packet(uint8_t *packet, size_t n)
{
    memcpy(packet, front, FRONT);
    packet[5] = (uint8_t)(n - 7);
    packet[6] = (uint8_t)((n - 7) >> 8);
    uint16_t crc = baseline_crc16(0, packet, n - 2);
    packet[n - 2] = (uint8_t)crc;
    packet[n - 1] = (uint8_t)(crc >> 8);
}

int64_t baseline_plan(const int32_t *goals, size_t n_goals, uint8_t *out, size_t n_out)
{
    int64_t refusal = goals_refusal(goals, n_goals);
    size_t wanted = 0;
    if (refusal != 0)
        return refusal;
    for (size_t id = 0; id < IDS; id++)
        wanted += goals[id] >= 0;
    size_t size = ENTRY * wanted + AROUND * ((wanted + MOST - 1) / MOST);
    if (n_out < size)
        return -DXL_NO_ROOM;
    size_t start = 0, at = FRONT, left = wanted;
    for (size_t id = 0; id < IDS; id++) {
        if (goals[id] < 0)
            continue;
        out[at] = (uint8_t)id;
        out[at + 1] = (uint8_t)goals[id];
        out[at + 2] = (uint8_t)(goals[id] >> 8);
        out[at + 3] = out[at + 4] = 0;
        at += ENTRY;
        left--;
        if (left == 0 || at - start == FRONT + ENTRY * MOST) {
            close_packet(out + start, at + 2 - start);
            start = at + 2;
            at = start + FRONT;
        }
    }
    return (int64_t)size;
}

/* The entries, each wanted and for the first time. The bytes that are stuffed would be an ID or a goal that no plan has. */
static int marks(const int32_t *goals, const uint8_t *entries, size_t n, uint8_t stood[256])
{
    if (n == 0 || n % ENTRY != 0)
        return 0;
    for (size_t at = 0; at < n; at += ENTRY) {
        unsigned id = entries[at];
        uint32_t goal = entries[at + 1] | (uint32_t)entries[at + 2] << 8 | (uint32_t)entries[at + 3] << 16 | (uint32_t)entries[at + 4] << 24;
        if (id >= IDS || goals[id] < 0 || goal != (uint32_t)goals[id] || stood[id])
            return 0;
        stood[id] = 1;
    }
    return 1;
}

int64_t baseline_plan_check(const int32_t *goals, size_t n_goals, const uint8_t *plan, size_t n_plan)
{
    int64_t refusal = goals_refusal(goals, n_goals);
    uint8_t stood[256] = {0};
    if (refusal != 0)
        return refusal;
    for (size_t at = 0; at < n_plan;) {
        struct dxl_event event = baseline_next_event(plan, n_plan, at);
        const uint8_t *packet = plan + at;
        if (event.kind != DXL_PACKET || event.offset != at || event.count < AROUND)
            return 0;
        if (packet[4] != front[4] || memcmp(packet + 7, front + 7, FRONT - 7) != 0
            || !marks(goals, packet + FRONT, event.count - AROUND, stood))
            return 0;
        at = event.next;
    }
    for (size_t id = 0; id < IDS; id++)
        if (goals[id] >= 0 && !stood[id])
            return 0;
    return 1;
}
