/* dxl plan: the wanted goals of many devices as Sync Writes. */
#include "plan.h"

#include <stdarg.h>
#include <stdio.h>
#include <stdlib.h>
#include <string.h>

#include "capture.h"
#include "files.h"
#include "goals.h"
#include "meaning.h"
#include "say.h"
#include "words.h"

enum { LONGEST_PLAN = 1293, HEAD = 5, ENTRY = 5 };

static const char HELP[] =
    "usage: dxl plan make GOALS [OUT]    write the wanted goals of many devices as Sync Writes\n"
    "       dxl plan check GOALS PLAN    say whether a plan, whoever made it, sets these goals and nothing else\n"
    "       dxl plan show PLAN           print the goals that a plan sets, as a list that 'dxl plan make' takes\n"
    "       dxl plan COMMAND --help      say more of a command\n"
    "\n"
    "GOALS - and PLAN - are standard input, and each may be a pipe. It ends with 0 where all is well, 1 where a plan is not accepted\n"
    "or has more in it than goals, 2 where it does not know the words, and 3 where a file cannot be read or written, or the goals are\n"
    "not good ones; then it says why.\n";

#define GOALS_ARE \
    "GOALS is a text file: in each line an ID, 0 to 252, and its goal position, 0 to 4095, or -1 for none, in decimal. Empty lines and\n" \
    "what stands behind a # are passed over. An ID stands once at the most, and IDs that are left out get no goal.\n"

static const char HELP_MAKE[] =
    "usage: dxl plan make GOALS [OUT]\n"
    "\n" GOALS_ARE "\n"
    "Writes the packets to OUT, one behind the other, as they go over the line; without OUT it prints them in hex, a line for each\n"
    "packet. They have 203 devices each but the last, and IDs rise. Where no goal is wanted, there is no packet. An OUT that is there\n"
    "is replaced once the new one is complete; a link is replaced itself.\n";

static const char HELP_CHECK[] =
    "usage: dxl plan check GOALS PLAN\n"
    "\n" GOALS_ARE "\n"
    "PLAN is a file of packets, as 'dxl plan make' writes them to OUT or prints them in hex. It is accepted where nothing but good\n"
    "packets stands in it, each sets goal positions of many devices by a list that these take, and the lists together have the goals\n"
    "wanted, each of them once. Where it is not, the first thing that is wrong is said.\n";

static const char HELP_SHOW[] =
    "usage: dxl plan show PLAN\n"
    "\n"
    "Prints the goals that the packets of PLAN set: a comment for each packet, and below it a line for each device, with its ID and its\n"
    "goal, as GOALS has them. PLAN is a file as 'dxl plan make' writes it, or the hex that it prints. What is no Sync Write of goal\n"
    "positions to all devices is told in a comment, and it ends with 1 then. 'dxl show' says more of such packets.\n";

/* ---- dxl plan make */

/* A line for each packet. */
static int print_packets(const uint8_t *plan, size_t n)
{
    struct dxl_event event = dxl_next_event(plan, n, 0);
    while (event.kind == DXL_PACKET) {
        for (size_t i = event.offset; i < event.next; i++)
            printf("%02X%c", plan[i], i + 1 == event.next ? '\n' : ' ');
        event = dxl_next_event(plan, n, event.next);
    }
    return printed(DONE);
}

static int write_packets(const char *out, const uint8_t *plan, size_t n)
{
    struct output output;
    if (!may_be_written(out) || !begin_output(out, n, &output))
        return FAILED;
    memcpy(output.bytes, plan, n);
    return finish_output(&output) ? DONE : FAILED;
}

static int plan_make(const struct options *options, int n, char **words)
{
    (void)options;
    struct goals goals;
    struct mapped file;
    uint8_t plan[LONGEST_PLAN];
    if (!read_goals(words[0], &goals) || !measure_file(words[0], &file))
        return FAILED;
    if (n == 2 && same_file(words[1], &file)) {
        say_failure(words[1], "the goals and the plan to be written are one file");
        return FAILED;
    }
    int64_t count = dxl_plan(goals.of, IDS, plan, sizeof plan);
    if (count < 0) { /* not expected: the goals were tested as the library tests them */
        say_failure(file_name(words[0]), "refused by a number that is not expected here");
        return FAILED;
    }
    return n == 1 ? print_packets(plan, (size_t)count) : write_packets(words[1], plan, (size_t)count);
}

/* ---- reading a plan */

/* A plan of packets begins with FF, and a printed one with a digit, a space or a comment. */
static int is_hex(const struct mapped *plan)
{
    return plan->count > 0 && plan->bytes[0] != 0 && strchr("0123456789ABCDEFabcdef \t\r\n#", plan->bytes[0]) != NULL;
}

/* The bytes that the hex means take the place of it. They are freed with the program. */
static int read_hex(const char *name, struct mapped *plan)
{
    static uint8_t *bytes;
    struct capture capture;
    struct block *block = malloc(sizeof *block);
    size_t n = 0;
    bytes = malloc(plan->count);
    int good = block != NULL && bytes != NULL;
    open_memory(file_name(name), plan->bytes, plan->count, &capture);
    capture.text = 1;
    while (good && (good = next_block(&capture, block))) {
        memcpy(bytes + n, block->bytes, block->n);
        n += block->n;
        if (block->end)
            break;
    }
    free(block);
    plan->bytes = bytes;
    plan->count = n;
    return good && capture.timed ? say_failure(file_name(name), "bytes in hex are wanted, and no times") : good;
}

static int read_plan(const char *name, struct mapped *plan)
{
    return map_file(name, plan) && (!is_hex(plan) || read_hex(name, plan));
}

/* ---- dxl plan check */

/* What is wrong first. The answer itself is the library's; this only says why. */
struct reason {
    char text[120];
    size_t packets;     /* that fit */
    uint8_t stood[IDS]; /* the IDs in them */
};

/* The reason, behind what it is about; returns 0. */
static int is_wrong(struct reason *why, const char *format, ...)
{
    va_list values;
    size_t n = strlen(why->text);
    va_start(values, format);
    vsnprintf(why->text + n, sizeof why->text - n, format, values);
    va_end(values);
    return 0;
}

/* Whether devices would carry the list out. */
static int list_fits(const uint8_t *list, size_t n, struct reason *why)
{
    uint8_t here[256] = {0};
    if (n == 0)
        return is_wrong(why, "its list is empty");
    if (n % ENTRY != 0)
        return is_wrong(why, "the last entry of its list is cut short");
    for (size_t at = 0; at < n; at += ENTRY) {
        if (list[at] >= IDS)
            return is_wrong(why, "its list has %u, which is no device's ID", (unsigned)list[at]);
        if (here[list[at]]++)
            return is_wrong(why, "its list has ID %u twice", (unsigned)list[at]);
    }
    return 1;
}

/* Whether its goals are those wanted, each for the first time. */
static int entries_fit(const struct goals *goals, const uint8_t *list, size_t n, struct reason *why)
{
    for (size_t at = 0; at < n; at += ENTRY) {
        unsigned id = list[at];
        uint32_t goal = list[at + 1] | (uint32_t)list[at + 2] << 8 | (uint32_t)list[at + 3] << 16 | (uint32_t)list[at + 4] << 24;
        if (goals->of[id] == NO_GOAL)
            return is_wrong(why, "no goal is wanted for ID %u", id);
        if (why->stood[id]++)
            return is_wrong(why, "ID %u stands in a packet before it too", id);
        if (goal != (uint32_t)goals->of[id])
            return is_wrong(why, "ID %u has the goal %lu and not %ld", id, (unsigned long)goal, (long)goals->of[id]);
    }
    return 1;
}

static int packet_fits(const struct goals *goals, const uint8_t *packet, const struct dxl_event *event, struct reason *why)
{
    static const uint8_t head[HEAD] = {DXL_INST_SYNC_WRITE, DXL_REG_GOAL_POSITION, 0, DXL_SIZE_GOAL_POSITION, 0};
    uint8_t body[DXL_MAX_BODY];
    int64_t n = dxl_unstuff(packet + 7, event->count - 9, body, sizeof body);
    is_wrong(why, "the packet at offset %zu: ", event->offset);
    if (event->id != DXL_BROADCAST_ID)
        return is_wrong(why, "it is for ID %u and not for all devices", (unsigned)event->id);
    if (n < HEAD || memcmp(body, head, HEAD) != 0)
        return is_wrong(why, "it is no Sync Write of goal positions");
    if (!list_fits(body + HEAD, (size_t)n - HEAD, why) || !entries_fit(goals, body + HEAD, (size_t)n - HEAD, why))
        return 0;
    why->text[0] = 0;
    return 1;
}

/* The packet that begins at an offset, or no event. The reader is shown no more than a packet can have: it would look for the next one
 * to the end of the file. */
static struct dxl_event packet_at(const uint8_t *plan, size_t n, size_t at)
{
    struct dxl_event event = dxl_next_event(plan, n - at > DXL_MAX_PACKET ? at + DXL_MAX_PACKET : n, at);
    if (event.kind != DXL_PACKET || event.offset != at)
        event.kind = DXL_NO_EVENT;
    return event;
}

/* Packet after packet, and then the IDs that are left. */
static int packets_fit(const struct goals *goals, const uint8_t *plan, size_t n, struct reason *why)
{
    size_t at = 0;
    memset(why, 0, sizeof *why);
    while (at < n) {
        struct dxl_event event = packet_at(plan, n, at);
        if (event.kind != DXL_PACKET)
            return is_wrong(why, "no well-formed packet begins at offset %zu", at);
        if (!packet_fits(goals, plan + at, &event, why))
            return 0;
        at = event.next;
        why->packets++;
    }
    for (size_t id = 0; id < IDS; id++)
        if (goals->of[id] != NO_GOAL && !why->stood[id])
            return is_wrong(why, "ID %zu is wanted and does not stand in it", id);
    return 1;
}

static int plan_check(const struct options *options, int n, char **words)
{
    (void)options, (void)n;
    struct goals goals;
    struct mapped plan;
    struct reason why;
    if (!read_goals(words[0], &goals) || !read_plan(words[1], &plan))
        return FAILED;
    int64_t answer = dxl_plan_check(goals.of, IDS, plan.bytes, plan.count);
    packets_fit(&goals, plan.bytes, plan.count, &why);
    put_name(stdout, file_name(words[1]));
    if (answer == 1) {
        printf(": accepted, %zu goal%s in %zu packet%s\n", goals.wanted, goals.wanted == 1 ? "" : "s", why.packets,
               why.packets == 1 ? "" : "s");
        return printed(DONE);
    }
    printf(": not accepted: %s\n", why.text);
    return printed(NO);
}

/* ---- dxl plan show */

/* Whether it is a Sync Write of goal positions and nothing else, as far as its list is whole. */
static int sets_goals(const struct dxl_event *event, const struct meaning *meaning)
{
    if (event->id != DXL_BROADCAST_ID || meaning->code != DXL_INST_SYNC_WRITE || meaning->n_fields == 0 || meaning->n_data > 0)
        return 0;
    int64_t number;
    for (size_t i = 0; i < meaning->n_fields; i++)
        if (meaning->fields[i].address != DXL_REG_GOAL_POSITION || !field_number(&meaning->fields[i], &number))
            return 0;
    return 1;
}

/* Whether the packet is one of a plan. */
static int print_goals(const uint8_t *plan, const struct dxl_event *event)
{
    static struct meaning meaning;
    int64_t goal = 0;
    find_meaning(find_protocol("2"), plan + event->offset, event->count, &meaning);
    if (!sets_goals(event, &meaning)) {
        printf("# the packet at offset %zu is no Sync Write of goal positions to all devices\n", event->offset);
        return 0;
    }
    printf("# the packet at offset %zu: %zu goal%s\n", event->offset, meaning.n_fields, meaning.n_fields == 1 ? "" : "s");
    for (size_t i = 0; i < meaning.n_fields; i++) {
        field_number(&meaning.fields[i], &goal);
        printf("%d %ld\n", meaning.fields[i].id, (long)goal);
    }
    return 1;
}

static int plan_show(const struct options *options, int n, char **words)
{
    (void)options, (void)n;
    struct mapped plan;
    size_t at = 0;
    int good = 1;
    if (!read_plan(words[0], &plan))
        return FAILED;
    begin_work("reading the plan");
    while (!ferror(stdout)) {
        struct dxl_event event = packet_at(plan.bytes, plan.count, at);
        if (event.kind != DXL_PACKET)
            break;
        good &= print_goals(plan.bytes, &event);
        at = event.next;
    }
    end_work();
    if (at < plan.count)
        printf("# no well-formed packet begins at offset %zu\n", at);
    return printed(good && at == plan.count ? DONE : NO);
}

/* ---- a plan that is to be sent */

/* Whether it is text whose first word begins with a digit, such as an ID; that of a packet in hex begins with F, or with 0x. */
static int is_list(const struct mapped *plan)
{
    const uint8_t *at = plan->bytes, *end = at + plan->count;
    while (at < end && strchr(" \t\r\n#", *at) != NULL && *at != 0) {
        const uint8_t *stop = *at == '#' ? memchr(at, '\n', (size_t)(end - at)) : at;
        at = stop == NULL ? end : stop + 1;
    }
    return at < end && *at >= '0' && *at <= '9' && !(end - at > 1 && (at[1] == 'x' || at[1] == 'X'));
}

/* Takes over the goals of a packet, as far as they are goals: the test of plans says no to the others. */
static void take_goals(const uint8_t *plan, const struct dxl_event *event, struct goals *goals)
{
    static struct meaning meaning;
    int64_t goal = 0;
    find_meaning(find_protocol("2"), plan + event->offset, event->count, &meaning);
    for (size_t i = 0; sets_goals(event, &meaning) && i < meaning.n_fields; i++) {
        int id = meaning.fields[i].id;
        field_number(&meaning.fields[i], &goal);
        if (id >= IDS || goals->of[id] != NO_GOAL || goal < 0 || goal > MOST_GOAL)
            continue;
        goals->of[id] = (int32_t)goal;
        goals->wanted++;
    }
}

int read_tested_plan(const char *name, struct mapped *plan, struct goals *goals, size_t *packets)
{
    struct reason why;
    char message[sizeof why.text + 16];
    no_goals(goals);
    if (!map_file(name, plan))
        return FAILED;
    if (is_list(plan)) {
        say_failure(file_name(name), "not sent: a list of goals is no plan; 'dxl plan make' makes one of it");
        return NO;
    }
    if (is_hex(plan) && !read_hex(name, plan))
        return FAILED;
    struct dxl_event event = packet_at(plan->bytes, plan->count, 0);
    for (; event.kind == DXL_PACKET; event = packet_at(plan->bytes, plan->count, event.next))
        take_goals(plan->bytes, &event, goals);
    int64_t answer = dxl_plan_check(goals->of, IDS, plan->bytes, plan->count);
    packets_fit(goals, plan->bytes, plan->count, &why);
    *packets = why.packets;
    if (answer == 1)
        return DONE;
    snprintf(message, sizeof message, "not sent: %s", why.text);
    say_failure(file_name(name), message);
    return NO;
}

/* ---- words */

int plan_command(int n, char **words)
{
    static const struct command commands[] = {
        {"make", HELP_MAKE, "GOALS", 1, 2, "", plan_make},
        {"check", HELP_CHECK, "GOALS PLAN", 2, 2, "", plan_check},
        {"show", HELP_SHOW, "PLAN", 1, 1, "", plan_show},
    };
    return run_command(commands, sizeof commands / sizeof *commands, "plan", HELP, n, words);
}
