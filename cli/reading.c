#include "reading.h"

#include <stdlib.h>
#include <string.h>

#include "files.h"
#include "say.h"

/* A reader holds at most DXL_MAX_HELD bytes from one block to the next. */
enum { WINDOW = BLOCK + DXL_MAX_HELD };

struct listener {
    const struct protocol *protocol;
    int (*hear)(void *, const struct item *);
    void *hearer;
    int goes_on;
    uint8_t held[DXL_MAX_HELD]; /* of the library's reader; these three are written by its calls alone */
    size_t count;
    uint8_t packet[DXL_MAX_PACKET];
    uint8_t bytes[WINDOW]; /* those from `base` on */
    int64_t times[WINDOW];
    int timed;
    int64_t byte_time;
    uint64_t segment;              /* its number */
    uint64_t base, settled, taken; /* where the window begins, where reading goes on, and what the reader has taken */
    uint64_t damaged, damaged_end; /* the bytes of the last bad checksum */
    struct item noise;             /* that is being gathered; its length is 0 where there is none */
    uint8_t first_noise[SHOWN_NOISE];
};

static const uint8_t *bytes_at(const struct listener *listener, uint64_t offset)
{
    return listener->bytes + (offset - listener->base);
}

/* ---- noise */

/* Whether the library's reader, given these bytes alone, waits for more of the packet that begins with the first of them. */
static int agrees(const struct protocol *protocol, const uint8_t *bytes, size_t n)
{
    uint8_t held[DXL_MAX_HELD], packet[DXL_MAX_PACKET];
    size_t count = 0;
    return protocol->feed(held, &count, bytes, n, packet).kind == DXL_NO_EVENT && count == n;
}

/* By the byte that the reader did not accept behind those that agree. What has a good front and all its bytes, and is no event, has a
 * right checksum and is not well stuffed. */
static enum reason reason_of(const struct protocol *protocol, size_t agreed, size_t there, size_t whole)
{
    if (agreed == there)
        return whole == there ? WRONG_STUFFING : CUT_OFF;
    if (agreed < protocol->header)
        return WRONG_HEADER;
    if (agreed == protocol->header)
        return WRONG_ID;
    return WRONG_LENGTH;
}

/* The beginning at an offset that was passed over, if it is longer than the longest so far. */
static void look_at(struct listener *listener, uint64_t offset)
{
    const struct protocol *protocol = listener->protocol;
    struct beginning *longest = &listener->noise.longest;
    const uint8_t *bytes = bytes_at(listener, offset);
    size_t there = (size_t)(listener->taken - offset), whole = 0;
    size_t most = there < protocol->front ? there : protocol->front;
    size_t agreed = longest->agreed < most ? longest->agreed : most - 1;
    if (!agrees(protocol, bytes, agreed + 1))
        return;
    while (agreed < most && agrees(protocol, bytes, agreed + 1))
        agreed++;
    if (agreed == protocol->front) {
        whole = announced(protocol, bytes);
        there = there < whole ? there : whole;
        agreed = there;
    }
    if (agreed <= longest->agreed)
        return;
    *longest = (struct beginning){reason_of(protocol, agreed, there, whole), offset, agreed, whole, {0}};
    memcpy(longest->front, bytes, most);
}

static void begin_noise(struct listener *listener, uint64_t offset)
{
    struct item *noise = &listener->noise;
    memset(noise, 0, sizeof *noise);
    noise->kind = NOISE;
    noise->segment = listener->segment;
    noise->offset = offset;
    noise->bytes = listener->first_noise;
    noise->timed = listener->timed;
    noise->first = listener->times[offset - listener->base];
}

/* Bytes that are in no packet and in no bad checksum. A packet begins with FF in every protocol. */
static void gather(struct listener *listener, uint64_t from, uint64_t to)
{
    struct item *noise = &listener->noise;
    if (from >= to)
        return;
    if (noise->length == 0)
        begin_noise(listener, from);
    size_t room = SHOWN_NOISE - noise->n, kept = to - from < room ? (size_t)(to - from) : room;
    memcpy(listener->first_noise + noise->n, bytes_at(listener, from), kept);
    noise->n += kept;
    noise->last = listener->times[to - 1 - listener->base] + listener->byte_time;
    noise->length += to - from;
    const uint8_t *at = bytes_at(listener, from), *end = at + (to - from);
    for (at = memchr(at, 0xFF, (size_t)(end - at)); at != NULL; at = memchr(at, 0xFF, (size_t)(end - at)))
        look_at(listener, listener->base + (uint64_t)(at++ - listener->bytes));
}

/* Reading goes on at `to`: what was passed over up to there is noise, but for the bytes of a bad checksum. */
static void pass_over(struct listener *listener, uint64_t to)
{
    uint64_t from = listener->settled > listener->damaged_end ? listener->settled : listener->damaged_end;
    gather(listener, from, to);
    listener->settled = to;
}

static void tell(struct listener *listener, const struct item *item)
{
    if (listener->goes_on)
        listener->goes_on = listener->hear(listener->hearer, item);
}

static void tell_noise(struct listener *listener)
{
    if (listener->noise.length > 0)
        tell(listener, &listener->noise);
    listener->noise.length = 0;
}

/* ---- events */

/* After an event the reader holds all bytes that it has taken from where reading goes on. */
static void tell_event(struct listener *listener, const struct dxl_step *step)
{
    uint64_t next = listener->taken - listener->count;
    struct item item = {.kind = step->kind == DXL_PACKET ? PACKET : BAD_CHECKSUM, .id = step->id, .timed = listener->timed};
    item.segment = listener->segment;
    item.offset = next - (item.kind == PACKET ? step->count : 1);
    pass_over(listener, item.offset);
    tell_noise(listener);
    item.bytes = bytes_at(listener, item.offset);
    item.n = item.kind == PACKET ? step->count : announced(listener->protocol, item.bytes);
    item.length = item.n;
    item.first = listener->times[item.offset - listener->base];
    item.last = listener->times[item.offset + item.length - 1 - listener->base] + listener->byte_time;
    item.inside = item.offset < listener->damaged_end;
    item.outer = listener->damaged;
    if (item.kind == BAD_CHECKSUM && item.offset + item.length > listener->damaged_end) {
        listener->damaged = item.offset;
        listener->damaged_end = item.offset + item.length;
    }
    tell(listener, &item);
    listener->settled = next;
}

/* The library's reader, until it has no event left; then all that it does not hold is settled. */
static void feed(struct listener *listener, const uint8_t *chunk, size_t n)
{
    while (listener->goes_on) {
        struct dxl_step step = listener->protocol->feed(listener->held, &listener->count, chunk, n, listener->packet);
        listener->taken += step.taken;
        chunk += step.taken;
        n -= step.taken;
        if (step.kind != DXL_PACKET && step.kind != DXL_BAD_CHECKSUM)
            break;
        tell_event(listener, &step);
    }
    pass_over(listener, listener->taken - listener->count);
}

/* Ends the segment. */
static void end_segment(struct listener *listener)
{
    while (listener->goes_on) {
        struct dxl_step step = listener->protocol->gap(listener->held, &listener->count, listener->packet);
        if (step.kind != DXL_PACKET && step.kind != DXL_BAD_CHECKSUM)
            break;
        tell_event(listener, &step);
    }
    pass_over(listener, listener->taken);
    tell_noise(listener);
    listener->segment++;
}

/* The block's bytes behind those that are not settled yet. */
void hear_block(struct listener *listener, const struct block *block)
{
    size_t settled = (size_t)(listener->settled - listener->base), kept = (size_t)(listener->taken - listener->settled);
    memmove(listener->bytes, listener->bytes + settled, kept);
    memmove(listener->times, listener->times + settled, kept * sizeof *listener->times);
    listener->base = listener->settled;
    memcpy(listener->bytes + kept, block->bytes, block->n);
    if (listener->timed)
        memcpy(listener->times + kept, block->times, block->n * sizeof *block->times);
    feed(listener, listener->bytes + kept, block->n);
    if (block->gap)
        end_segment(listener);
}

struct listener *begin_listening(const struct protocol *protocol, int (*hear)(void *, const struct item *), void *hearer)
{
    struct listener *listener = calloc(1, sizeof *listener);
    if (listener != NULL) {
        listener->protocol = protocol;
        listener->hear = hear;
        listener->hearer = hearer;
        listener->goes_on = 1;
    }
    return listener;
}

int read_items(struct capture *capture, const struct protocol *protocol, int (*hear)(void *, const struct item *), void *hearer,
               uint64_t *total)
{
    struct listener *listener = begin_listening(protocol, hear, hearer);
    struct block *block = malloc(sizeof *block);
    int good = listener != NULL && block != NULL;
    *total = 0;
    if (listener != NULL)
        listener->segment = capture->segment;
    if (!good)
        say_failure(capture->name, "no memory");
    while (good && listener->goes_on) {
        good = next_block(capture, block);
        listener->timed = capture->timed;
        listener->byte_time = capture->byte_time;
        if (good)
            hear_block(listener, block);
        *total = listener->taken;
        if (block->end)
            break;
    }
    free(listener);
    free(block);
    return good;
}
