#include "master.h"

#include <stdio.h>
#include <string.h>
#include <unistd.h>

#include "files.h"
#include "say.h"
#include "text.h"

enum { TIMEOUT = 100, SCAN_TIMEOUT = 30, RETRIES = 2 }; /* where no option says otherwise; milliseconds */
enum { PATIENT_TIMEOUT = 1000 };                        /* or more, for a device that has answered late */
enum { DEVICES = 253, BAUD = 57600, STATUS_BYTES = 11 };
enum { GAP = 3000 }; /* microseconds: twice the silence that ends a segment */

/* An ID in a scan. One that answers when the next one is asked already is late. */
enum { NOT_ASKED, SILENT, LATE, ANSWERED };

/* ---- what is printed */

static void print_line(const struct master *master, const struct event *event)
{
    hide_work();
    if (master->options->hex)
        printf("%c  ", sign_of(event));
    put_who(stdout, event->id);
    if (sign_of(event) == '<')
        put_status(stdout, master->options->protocol, event);
    else
        put_event(stdout, master->options->protocol, event);
    if (master->options->hex) {
        fputs("  | ", stdout);
        put_bytes(stdout, event->item->bytes, event->item->n);
    }
    putchar('\n');
    fflush(stdout); /* a scan takes some time */
}

static void say_front(const struct master *master)
{
    hide_work();
    fputs("dxl: ", stderr);
    put_name(stderr, master->line.name);
    fputs(": ", stderr);
}

static void say_event(const struct master *master, const char *what, const struct event *event)
{
    say_front(master);
    fputs(what, stderr);
    if (event->id == DXL_BROADCAST_ID)
        fputs("all: ", stderr);
    else if (event->id >= 0)
        fprintf(stderr, "ID %d: ", event->id);
    put_event(stderr, master->options->protocol, event);
    fputc('\n', stderr);
}

/* ---- what is heard */

/* What was sent is heard too, where the line gives it back once more. Behind the instruction of another master, statuses are its. */
static void hear_instruction(struct master *master, const struct event *event)
{
    if (event->item->n != master->n || memcmp(event->item->bytes, master->packet, master->n) != 0) {
        say_event(master, "unexpected: ", event);
        return;
    }
    master->asked = event->offset;
    if (master->options->hex)
        print_line(master, event);
}

static int is_answer(const struct master *master, const struct event *event)
{
    if (event->id >= DEVICES || !master->wanted[event->id])
        return 0;
    return event->answers == TO_BAD_CHECKSUM || (event->answers == TO_INSTRUCTION && event->asked == master->asked);
}

static void hear_unexpected(struct master *master, const struct event *event)
{
    if (master->scanning && event->id < DEVICES && (master->state[event->id] == SILENT || master->state[event->id] == LATE))
        master->state[event->id] = LATE;
    else
        say_event(master, "unexpected: ", event);
}

static void hear_status(struct master *master, const struct event *event)
{
    const struct meaning *meaning = event->meaning;
    unsigned error = meaning->code & 0x7Fu;
    if (!is_answer(master, event)) {
        hear_unexpected(master, event);
        return;
    }
    if (error == DXL_ERROR_CHECKSUM && !master->last) {
        say_event(master, "", event);
        master->damaged = master->again = 1;
        return;
    }
    master->wanted[event->id] = 0;
    master->left--;
    master->found++;
    master->refused |= error != 0 || meaning->note != NULL;
    print_line(master, event);
}

static int hear(void *hearer, const struct event *event)
{
    struct master *master = hearer;
    switch (sign_of(event)) {
    case '>':
        hear_instruction(master, event);
        break;
    case '<':
        hear_status(master, event);
        break;
    default:
        say_event(master, "", event);
        master->damaged = 1;
    }
    return 1;
}

/* The bytes, and that the line is silent behind them. */
static struct block block;

static void tell(struct master *master, int gap)
{
    block.gap = gap;
    tell_block(master->teller, &block);
    block.n = 0;
}

/* ---- who answers */

static int has_list(const struct request *request)
{
    return request->instruction == DXL_INST_SYNC_READ || request->instruction == DXL_INST_BULK_READ;
}

static int any_may_answer(const struct request *request)
{
    return request->id == DXL_BROADCAST_ID && request->instruction == DXL_INST_PING;
}

/* Where in the parameters the list begins, and the bytes of an entry, the first of which is an ID. */
static size_t list_at(const struct request *request)
{
    return request->instruction == DXL_INST_SYNC_READ ? 4 : 0;
}

static size_t entry_bytes(const struct request *request)
{
    return request->instruction == DXL_INST_SYNC_READ ? 1 : 5;
}

static void want(struct master *master, uint8_t id)
{
    master->left += !master->wanted[id];
    master->wanted[id] = 1;
}

static void want_answers(struct master *master, const struct request *request)
{
    memset(master->wanted, 0, sizeof master->wanted);
    master->left = master->found = 0;
    master->refused = master->damaged = master->missed = 0;
    if (request->id != DXL_BROADCAST_ID)
        want(master, request->id);
    for (unsigned id = 0; any_may_answer(request) && id < DEVICES; id++)
        want(master, (uint8_t)id);
    for (size_t at = list_at(request); has_list(request) && at < request->n; at += entry_bytes(request))
        want(master, request->params[at]);
}

/* Only those are asked again that have not answered. */
static void drop_answered(const struct master *master, struct request *request)
{
    size_t n = list_at(request), entry = entry_bytes(request);
    if (!has_list(request))
        return;
    for (size_t at = n; at < request->n; at += entry) {
        if (!master->wanted[request->params[at]])
            continue;
        memmove(request->params + n, request->params + at, entry);
        n += entry;
    }
    request->n = n;
}

/* ---- how often, and for how long */

/* Twice does what once does; of the others nobody knows whether the first was carried out. */
static int may_repeat(const struct request *request)
{
    int one = request->instruction == DXL_INST_PING || request->instruction == DXL_INST_READ || request->instruction == DXL_INST_WRITE;
    return has_list(request) || (one && request->id != DXL_BROADCAST_ID);
}

static int retries_of(const struct master *master, const struct request *request)
{
    if (!may_repeat(request))
        return 0;
    return master->options->retries >= 0 ? master->options->retries : RETRIES;
}

/* A scan goes past an ID at which nothing was heard, unless it was told how often to ask. */
static int goes_past(const struct master *master)
{
    return master->scanning && !master->damaged && master->options->retries < 0;
}

static int timeout_of(const struct master *master)
{
    int usual = master->scanning ? SCAN_TIMEOUT : TIMEOUT;
    int timeout = master->options->timeout >= 0 ? master->options->timeout : usual;
    return master->patient && timeout < PATIENT_TIMEOUT ? PATIENT_TIMEOUT : timeout;
}

/* The data in the longest answer. */
static size_t data_bytes(const struct request *request)
{
    size_t most = request->instruction == DXL_INST_PING ? DXL_SIZE_MODEL_NUMBER + DXL_SIZE_FIRMWARE_VERSION : 0;
    if (request->instruction == DXL_INST_READ || request->instruction == DXL_INST_SYNC_READ)
        most = word_at(request->params + 2);
    for (size_t at = 0; request->instruction == DXL_INST_BULK_READ && at < request->n; at += 5)
        if (word_at(request->params + at + 3) > most)
            most = word_at(request->params + at + 3);
    return most;
}

/* Devices answer a Ping to all of them in slots: the longest status, and twice the gap. */
static int64_t answers_micros(const struct master *master, const struct request *request)
{
    int64_t timeout = (int64_t)timeout_of(master) * 1000;
    if (any_may_answer(request))
        return DEVICES * (bytes_micros(&master->line, DXL_MAX_STATUS) + GAP) + timeout;
    size_t data = data_bytes(request);
    return (int64_t)master->left * (bytes_micros(&master->line, STATUS_BYTES + data + data / 3) + timeout);
}

/* ---- one exchange */

static int send_packet(struct master *master, const struct request *request)
{
    int64_t n = dxl_encode(request->id, request->instruction, request->params, request->n, master->packet, sizeof master->packet, 0);
    if (n < 0) /* not expected: whoever made the request has tried it */
        return say_failure(master->line.name, "the library refuses the instruction");
    master->n = (size_t)n;
    master->again = 0;
    tell(master, 1);
    memcpy(block.bytes, master->packet, master->n);
    block.n = master->n;
    tell(master, 1);
    return write_serial(&master->line, master->packet, master->n);
}

/* Until all have answered, or it is late: then what the reader holds is read to its end. */
static int take_answers(struct master *master, const struct request *request)
{
    int64_t until = now_micros() + bytes_micros(&master->line, master->n) + answers_micros(master, request);
    while (master->left > 0 && !master->again) {
        int64_t n = read_serial(&master->line, block.bytes, BLOCK, until);
        if (n < 0)
            return 0;
        int late = n == 0 || now_micros() >= until;
        block.n = (size_t)n;
        tell(master, late);
        master->missed |= late && master->left > 0;
        if (late)
            break;
    }
    return 1;
}

/* Whoever was asked twice may answer twice: the second answer is not to be taken for that to the next instruction. */
static int let_pass(struct master *master)
{
    int64_t until = now_micros() + (int64_t)timeout_of(master) * 1000, n;
    do
        n = read_serial(&master->line, block.bytes, BLOCK, until);
    while (n > 0 && now_micros() < until);
    return n >= 0;
}

static void say_missing(const struct master *master, const struct request *request, int tries)
{
    const char *before = master->left == 1 ? "no answer from ID" : "no answer from IDs";
    say_front(master);
    for (int id = 0; id < DEVICES; id++) {
        if (!master->wanted[id])
            continue;
        fprintf(stderr, "%s %d", before, id);
        before = ",";
    }
    fprintf(stderr, " in %d ms", timeout_of(master));
    if (tries > 1)
        fprintf(stderr, ", asked %d times", tries);
    if (master->damaged)
        fputs("; what came was damaged", stderr);
    if (request->instruction != DXL_INST_PING && request->instruction != DXL_INST_READ && !has_list(request))
        fprintf(stderr, "; the %s%s may have been carried out", instruction_name(request->instruction),
                may_repeat(request) ? "" : ", which is sent once,");
    fputc('\n', stderr);
}

static int outcome(const struct master *master, const struct request *request, int tries)
{
    int missing = any_may_answer(request) ? master->found == 0 : master->left > 0;
    if (missing && any_may_answer(request))
        say_failure(master->line.name, "no device answers");
    else if (missing && (!master->scanning || master->damaged))
        say_missing(master, request, tries);
    if (missing)
        return FAILED;
    return master->refused ? NO : DONE;
}

/* Nobody answers; the devices need a silence to take it for the end. */
static int send_to_all(struct master *master, const struct request *request)
{
    if (!send_packet(master, request))
        return FAILED;
    wait_micros(bytes_micros(&master->line, master->n) + GAP);
    put_who(stdout, DXL_BROADCAST_ID);
    printf("%s sent, which no device answers\n", instruction_name(request->instruction));
    return DONE;
}

int exchange(struct master *master, const struct request *asked)
{
    struct request request = *asked;
    int retries = retries_of(master, asked), tries = 0;
    want_answers(master, asked);
    if (master->left == 0)
        return send_to_all(master, asked);
    do {
        drop_answered(master, &request);
        master->last = tries++ == retries;
        master->broken = !send_packet(master, &request) || !take_answers(master, &request);
        if (master->broken)
            return FAILED;
    } while (master->left > 0 && !master->last && !goes_past(master));
    master->broken = master->missed && master->left == 0 && !let_pass(master);
    return master->broken ? FAILED : outcome(master, asked, tries);
}

/* ---- several */

/* Asks the IDs in one state. How many have answered; whether one had an error is kept in `refused`. */
static int ask_each(struct master *master, int state, int *refused)
{
    int found = 0;
    master->patient = state == LATE;
    for (unsigned id = 0; id < DEVICES && !master->broken && !ferror(stdout); id++) {
        struct request ping = {.id = (uint8_t)id, .instruction = DXL_INST_PING};
        if (master->state[id] != state)
            continue;
        work_counted((int)id, DEVICES, " IDs, ");
        int status = exchange(master, &ping);
        master->state[id] = status == FAILED ? SILENT : ANSWERED;
        found += status != FAILED;
        *refused |= status == NO;
    }
    return found;
}

int scan(struct master *master)
{
    int refused = 0;
    master->scanning = 1;
    if (isatty(STDERR_FILENO))
        begin_work("scanning");
    int found = ask_each(master, NOT_ASKED, &refused);
    found += ask_each(master, LATE, &refused);
    end_work();
    if (found == 0 && !master->broken)
        say_failure(master->line.name, "no device answers");
    if (found == 0 || master->broken)
        return FAILED;
    return refused ? NO : DONE;
}

/* A plan is heard as one segment: with a silence before it and behind it. */
int send_plan(struct master *master, const uint8_t *plan, size_t n)
{
    wait_micros(GAP);
    if (!write_serial(&master->line, plan, n))
        return FAILED;
    wait_micros(bytes_micros(&master->line, n) + GAP);
    return DONE;
}

/* ---- begin and end */

int begin_master(const char *line, const struct options *options, struct master *master)
{
    memset(master, 0, sizeof *master);
    master->options = options;
    if (!open_serial(line, options->baud > 0 ? options->baud : BAUD, &master->line))
        return 0;
    master->teller = begin_telling(options->protocol, hear, master, &master->totals);
    if (master->teller != NULL)
        return 1;
    close_serial(&master->line);
    return say_failure(line, "no memory");
}

void end_master(struct master *master)
{
    close_serial(&master->line);
    end_telling(master->teller);
}
