#include "events.h"

#include <stdlib.h>
#include <string.h>

#include "say.h"

enum { IDS = 256 };

/* The last instruction, and who answers it. */
struct exchange {
    uint8_t instruction;
    const char *name;
    uint64_t offset;
    int64_t ended;
    uint8_t answers[IDS];  /* who has not answered yet: NOBODY, or one of the two below it */
    uint32_t address[IDS]; /* what each was asked for */
    uint32_t count[IDS];
};

/* Who is there to answer a Ping to all devices is not known. */
enum { NOBODY, HAS_TO, MAY };

/* The last bad checksum of an ID, which may be answered too, and may stand for a reply. */
struct bad {
    int there;
    uint64_t offset;
    int64_t ended;
};

struct teller {
    const struct protocol *protocol;
    struct listener *listener; /* where the bytes come block by block */
    int (*hear)(void *, const struct event *);
    void *hearer;
    struct totals *totals;
    struct exchange exchange;
    struct bad bad[IDS];
    struct meaning meaning;
};

/* ---- who answers what */

static void ask(struct exchange *exchange, unsigned id, uint32_t address, uint32_t count)
{
    if (id >= DXL_BROADCAST_ID)
        return;
    exchange->answers[id] = HAS_TO;
    exchange->address[id] = address;
    exchange->count[id] = count;
}

/* Who answers a Sync Read or a Bulk Read: each ID of its list. */
static void ask_list(struct exchange *exchange, const struct meaning *meaning)
{
    const uint8_t *params = meaning->body + 1;
    if (meaning->note != NULL)
        return;
    for (size_t i = 0; i < meaning->n_ids; i++)
        ask(exchange, meaning->ids[i], word_at(params), word_at(params + 2));
    for (size_t at = 0; meaning->code == DXL_INST_BULK_READ && at + 5 < meaning->n_body; at += 5)
        ask(exchange, params[at], word_at(params + at + 1), word_at(params + at + 3));
}

/* To one device everything is answered; to all devices Ping, Sync Read and Bulk Read. */
static void begin_exchange(const struct protocol *protocol, struct exchange *exchange, const struct item *item,
                           const struct meaning *meaning)
{
    memset(exchange, 0, sizeof *exchange);
    exchange->instruction = meaning->code;
    exchange->name = meaning->name != NULL ? meaning->name : "undefined instruction";
    exchange->offset = item->offset;
    exchange->ended = item->last;
    if (item->id != DXL_BROADCAST_ID) {
        int reads = meaning->code == DXL_INST_READ && meaning->n_fields > 0;
        uint32_t first = reads ? meaning->fields[0].address : 0, count = 0;
        for (size_t i = 0; reads && i < meaning->n_fields; i++)
            count += meaning->fields[i].count;
        ask(exchange, item->id, first, count);
    } else if (is_second(protocol)) {
        if (meaning->code == DXL_INST_PING && meaning->n_data == 0)
            memset(exchange->answers, MAY, DXL_BROADCAST_ID);
        if (meaning->code == DXL_INST_SYNC_READ || meaning->code == DXL_INST_BULK_READ)
            ask_list(exchange, meaning);
    }
}

/* Whether a status without data lacks those that were asked for. Only a master is told so; one with an error has none. */
static int lacks_data(const struct teller *teller, int pings, unsigned id)
{
    int failed = !teller->meaning.coded || (teller->meaning.code & 0x7F) != 0;
    return teller->listener != NULL && !failed && (pings || teller->exchange.count[id] > 0);
}

/* The data of a status, by what was asked for: Ping is answered by two registers that lie apart. */
static void find_data(struct teller *teller, unsigned id)
{
    const struct exchange *exchange = &teller->exchange;
    struct meaning *meaning = &teller->meaning;
    size_t n = meaning->n_data;
    int pings = exchange->instruction == DXL_INST_PING;
    if (!is_second(teller->protocol) || (n == 0 && !lacks_data(teller, pings, id)))
        return;
    if (pings && n == DXL_SIZE_MODEL_NUMBER + DXL_SIZE_FIRMWARE_VERSION) {
        add_fields(meaning, -1, DXL_REG_MODEL_NUMBER, DXL_SIZE_MODEL_NUMBER, meaning->data);
        add_fields(meaning, -1, DXL_REG_FIRMWARE_VERSION, DXL_SIZE_FIRMWARE_VERSION, meaning->data + DXL_SIZE_MODEL_NUMBER);
    } else if (!pings && n == exchange->count[id]) {
        add_fields(meaning, -1, exchange->address[id], exchange->count[id], meaning->data);
    } else {
        meaning->note = "not as many bytes of data as were asked for";
        return;
    }
    meaning->n_data = 0;
}

/* A status with error 03 answers a bad checksum with its ID; any other one the instruction that waits for it. */
static void pair(struct teller *teller, struct event *event)
{
    struct exchange *exchange = &teller->exchange;
    unsigned id = event->item->id;
    struct bad *bad = &teller->bad[id];
    int checksum = is_second(teller->protocol) && (teller->meaning.code & 0x7F) == DXL_ERROR_CHECKSUM;
    if (checksum && bad->there) {
        event->answers = TO_BAD_CHECKSUM;
        event->asked = bad->offset;
        event->asked_name = "bad checksum";
        event->delay = event->item->first - bad->ended;
        bad->there = 0;
    } else if (exchange->answers[id] != NOBODY) {
        event->answers = TO_INSTRUCTION;
        event->asked = exchange->offset;
        event->asked_name = exchange->name;
        event->delay = event->item->first - exchange->ended;
        exchange->answers[id] = NOBODY;
        find_data(teller, id);
    }
}

/* ---- events */

static int tell(struct teller *teller, const struct event *event)
{
    return teller->hear(teller->hearer, event);
}

/* A line for each reply that has not come before the next instruction, or before the end; times alone tell that somebody waited. */
static int tell_missing(struct teller *teller, uint64_t offset, int64_t until)
{
    struct exchange *exchange = &teller->exchange;
    int goes_on = 1;
    for (int id = 0; id < IDS && goes_on; id++) {
        if (exchange->answers[id] != HAS_TO || !teller->totals->timed)
            continue;
        struct event event = {.offset = offset, .id = id, .asked = exchange->offset, .asked_name = exchange->name, .time = until};
        event.delay = until - exchange->ended;
        event.damaged = teller->bad[id].there && teller->bad[id].offset > exchange->offset;
        event.damaged_at = teller->bad[id].offset;
        exchange->answers[id] = NOBODY;
        teller->totals->missing++;
        goes_on = tell(teller, &event);
    }
    return goes_on;
}

static int hear_packet(struct teller *teller, struct event *event)
{
    const struct item *item = event->item;
    struct meaning *meaning = &teller->meaning;
    teller->totals->packets++;
    event->meaning = meaning;
    find_meaning(teller->protocol, item->bytes, item->n, meaning);
    if (!is_second(teller->protocol) && teller->exchange.answers[item->id] != NOBODY)
        take_as_status(meaning);
    if (meaning->status) {
        pair(teller, event);
        teller->totals->errors += (unsigned)is_trouble(event);
        return tell(teller, event);
    }
    if (!tell_missing(teller, item->offset, item->first))
        return 0;
    begin_exchange(teller->protocol, &teller->exchange, item, meaning);
    return tell(teller, event);
}

static int hear_bad_checksum(struct teller *teller, struct event *event)
{
    const struct item *item = event->item;
    teller->totals->bad++;
    if (find_meaning(teller->protocol, item->bytes, item->n, &teller->meaning))
        event->meaning = &teller->meaning;
    teller->bad[item->id] = (struct bad){1, item->offset, item->last};
    return tell(teller, event);
}

static int hear_item(void *hearer, const struct item *item)
{
    struct teller *teller = hearer;
    struct totals *totals = teller->totals;
    struct event event = {.item = item, .offset = item->offset, .id = item->kind == NOISE ? -1 : item->id, .time = item->first};
    if (!totals->timed)
        totals->first = item->first;
    if (!totals->timed || item->last > totals->last)
        totals->last = item->last;
    totals->timed = item->timed;
    if (item->kind == PACKET)
        return hear_packet(teller, &event);
    if (item->kind == BAD_CHECKSUM)
        return hear_bad_checksum(teller, &event);
    totals->noise += item->length;
    return tell(teller, &event);
}

static struct teller *new_teller(const struct protocol *protocol, int (*hear)(void *, const struct event *), void *hearer,
                                 struct totals *totals)
{
    struct teller *teller = calloc(1, sizeof *teller);
    memset(totals, 0, sizeof *totals);
    if (teller != NULL) {
        teller->protocol = protocol;
        teller->hear = hear;
        teller->hearer = hearer;
        teller->totals = totals;
    }
    return teller;
}

int read_events(struct capture *capture, const struct protocol *protocol, int (*hear)(void *, const struct event *), void *hearer,
                struct totals *totals)
{
    struct teller *teller = new_teller(protocol, hear, hearer, totals);
    if (teller == NULL)
        return say_failure(capture->name, "no memory");
    int good = read_items(capture, protocol, hear_item, teller, &totals->bytes);
    if (good)
        tell_missing(teller, totals->bytes, totals->last);
    free(teller);
    return good;
}

struct teller *begin_telling(const struct protocol *protocol, int (*hear)(void *, const struct event *), void *hearer,
                             struct totals *totals)
{
    struct teller *teller = new_teller(protocol, hear, hearer, totals);
    if (teller != NULL)
        teller->listener = begin_listening(protocol, hear_item, teller);
    if (teller != NULL && teller->listener != NULL)
        return teller;
    free(teller);
    return NULL;
}

void tell_block(struct teller *teller, const struct block *block)
{
    hear_block(teller->listener, block);
}

void end_telling(struct teller *teller)
{
    free(teller->listener);
    free(teller);
}

/* ---- questions about an event */

static int is_listed(const struct meaning *meaning, int id)
{
    for (size_t i = 0; i < meaning->n_ids; i++)
        if (meaning->ids[i] == id)
            return 1;
    for (size_t i = 0; i < meaning->n_fields; i++)
        if (meaning->fields[i].id == id)
            return 1;
    return 0;
}

/* An instruction to all devices without a list is for each of them. */
int is_about(const struct event *event, int id)
{
    if (event->id == id)
        return 1;
    if (event->id != DXL_BROADCAST_ID || event->meaning == NULL)
        return 0;
    int listed = event->meaning->n_ids > 0 || (event->meaning->n_fields > 0 && event->meaning->fields[0].id >= 0);
    return !listed || is_listed(event->meaning, id);
}

int is_trouble(const struct event *event)
{
    if (event->item == NULL || event->item->kind != PACKET)
        return 1;
    return event->meaning->status && (!event->meaning->coded || event->meaning->code != 0);
}
