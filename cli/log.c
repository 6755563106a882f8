/*
 * dxl log: line logs on a bench computer. The exports of Mednukals write and test them, on files that are mapped into memory. Salvage is
 * in salvage.c.
 */
#include "log.h"

#include <inttypes.h>
#include <stdio.h>
#include <stdlib.h>
#include <string.h>
#include <unistd.h>

#include "files.h"
#include "log_file.h"
#include "say.h"
#include "show.h"

static const char HELP[] =
    "usage: dxl log write OUT CAPTURE...    write a log of captures, each of them one segment\n"
    "       dxl log check LOG               say whether a log is sound, and if not what is wrong\n"
    "       dxl log list LOG                list its segments\n"
    "       dxl log show LOG N              print what segment N holds, as dxl show does\n"
    "       dxl log extract LOG N OUT       write the bytes of segment N to a file\n"
    "       dxl log last LOG [ID]           say where the last packet for an ID stands, or for each ID that has one\n"
    "       dxl log salvage LOG OUT         write a sound log of what is whole in a cut one\n"
    "       dxl log COMMAND --help          say more of a command\n"
    "\n"
    "LOG - and CAPTURE - are standard input, and each may be a pipe. It ends with 0 where all is well, 1 where the answer is no (a log\n"
    "that is not sound, no packet for the ID, no such segment), 2 where it does not know the words, 3 where a file cannot be read or\n"
    "written, or a log cannot be written, salvaged or asked, and 4 where a salvage has altered or dropped something; then it says what.\n";

static const char HELP_WRITE[] =
    "usage: dxl log write OUT CAPTURE...\n"
    "\n"
    "Writes a log of the captures to OUT. Each CAPTURE is a file with the raw bytes of one segment (text is not read as hex\n"
    "here), and they are numbered from 0 in the order given. An OUT that is there is replaced once the new log is complete; until then\n"
    "it stays, and whatever goes wrong leaves it as it was. A link is replaced itself. All captures together may have some 4\n"
    "gigabytes, and must not change meanwhile; where there are several, a copy of them is kept in the folder of OUT until the log is\n"
    "written.\n";

static const char HELP_CHECK[] =
    "usage: dxl log check LOG\n"
    "\n"
    "Prints 'sound' with the count of segments and bytes, or what is wrong: 31 where the file is not laid out as a log, with the first\n"
    "number or segment that is not as it should be, 34 where its index is not that of its segments, with the first ID. Every segment\n"
    "is read. LOG - is standard input.\n";

static const char HELP_LIST[] =
    "usage: dxl log list LOG\n"
    "\n"
    "Prints a line for each segment: its number, its start in the file, its length, how many packets and bad checksums it has, and the\n"
    "IDs of its packets. Every segment is read, as Protocol 2.0. LOG - is standard input.\n";

static const char HELP_SHOW_LOG[] =
    "usage: dxl log show [--hex] [--json] [--errors] [--id N] [--protocol 2|1|mercury] LOG N\n"
    "\n"
    "Prints what segment N holds, as 'dxl show' does of a file with its bytes; offsets are those in the segment, as 'dxl log last'\n"
    "prints them. 'dxl show --help' says what the lines and the options mean. Segments are numbered from 0. LOG - is standard input.\n";

static const char HELP_EXTRACT[] =
    "usage: dxl log extract LOG N OUT\n"
    "\n"
    "Writes the bytes of segment N to OUT, as a capture. Segments are numbered from 0. An OUT that is there is replaced once the new\n"
    "one is complete; a link is replaced itself. OUT must not be the log. LOG - is standard input.\n";

static const char HELP_LAST[] =
    "usage: dxl log last LOG [ID]\n"
    "\n"
    "Prints the number of the segment, from 0, that has the last packet with that ID, and the offset of this packet in it. ID is 0 to\n"
    "252, or 254 for packets to all devices; without it there is a line for each ID that has a packet. The log is taken at its word:\n"
    "which segments its index names is not checked, and only those are read. 'dxl log check' tells whether the index is right, and\n"
    "'dxl log show' prints the segment. LOG - is standard input.\n";

/* ---- dxl log write */

struct captures {
    size_t count;
    char **names;
    struct mapped *files;
    uint32_t *lengths;
    const uint8_t *bytes; /* of all of them, behind each other */
    size_t total;
};

/* The captures and how long the log will be; a log that would be too long is not begun. Several are not mapped, since a process may
 * have only so many maps. */
static int map_captures(const char *out, struct captures *captures, uint64_t *size)
{
    *size = DXL_LOG_FRONT + DXL_LOG_ENTRY * (uint64_t)captures->count;
    captures->total = 0;
    for (size_t i = 0; i < captures->count; i++) {
        struct mapped *file = &captures->files[i];
        if (!(captures->count == 1 ? map_file(captures->names[i], file) : measure_file(captures->names[i], file)))
            return 0;
        if (same_file(out, file))
            return say_failure(file_name(captures->names[i]), "a capture and the log to be written are one file");
        captures->lengths[i] = (uint32_t)file->count;
        captures->total += file->count;
        *size += file->count;
        if (file->count > UINT32_MAX || *size > UINT32_MAX)
            return say_failure(out, "31, the log would have more than 4294967295 bytes");
    }
    return 1;
}

/* One capture is read where it lies; more of them are copied behind each other. */
static int join_captures(const char *out, struct captures *captures)
{
    captures->bytes = captures->files[0].bytes;
    if (captures->count == 1 || captures->total == 0)
        return 1;
    struct output joined;
    if (!begin_scratch(out, captures->total, &joined))
        return 0;
    size_t at = 0;
    for (size_t i = 0; i < captures->count; i++) {
        if (!append_file(captures->names[i], joined.bytes + at, captures->lengths[i]))
            return 0;
        at += captures->lengths[i];
    }
    captures->bytes = joined.bytes;
    return 1;
}

static int write_log(const char *out, struct captures *captures)
{
    uint64_t size;
    struct output log;
    if (!may_be_written(out) || !map_captures(out, captures, &size) || !join_captures(out, captures)
        || !begin_output(out, (size_t)size, &log))
        return FAILED;
    int64_t count =
        dxl_log_write(captures->bytes, captures->total, captures->lengths, captures->count, log.bytes, log.count);
    if (count < 0) /* not expected: the sizes were tested as the library tests them */
        return give_up(&log, reason(count)) ? DONE : FAILED;
    return finish_output(&log) ? DONE : FAILED;
}

static int log_write(const struct options *options, int n, char **words)
{
    (void)options;
    struct captures captures = {.count = (size_t)n - 1, .names = words + 1};
    captures.files = calloc(captures.count, sizeof *captures.files);
    captures.lengths = calloc(captures.count, sizeof *captures.lengths);
    if (captures.files == NULL || captures.lengths == NULL) {
        say_failure(words[0], "no memory");
        return FAILED;
    }
    begin_work("writing the log");
    int status = write_log(words[0], &captures);
    end_work();
    free(captures.files);
    free(captures.lengths);
    return status;
}

/* ---- dxl log check */

static int log_check(const struct options *options, int n, char **words)
{
    (void)options, (void)n;
    struct mapped log;
    char why[LOG_FAULT];
    if (!map_file(words[0], &log))
        return FAILED;
    begin_work("reading the segments");
    int64_t answer = dxl_log_check(log.bytes, log.count);
    if (answer != 0)
        find_fault(&log, answer, why);
    end_work();
    put_name(stdout, file_name(words[0]));
    if (answer != 0) {
        printf(": not sound: %s: %s\n", reason(answer), why);
        return printed(NO);
    }
    unsigned segments = number_at(log.bytes);
    printf(": sound, %u segment%s in %zu bytes\n", segments, segments == 1 ? "" : "s", log.count);
    return printed(DONE);
}

/* ---- segments */

/* A log that is laid out as one, or 0 with a message: the library tests that before it answers any question. */
static int map_log(const char *name, struct mapped *log)
{
    if (!map_file(name, log))
        return 0;
    int64_t answer = dxl_log_last(log->bytes, log->count, 0).found;
    return answer >= 0 || refuse_log(name, log, answer);
}

/* Number and bytes of the segment that the words LOG and N name: DONE, or how the program ends. */
static int find_segment(const char *help, char **words, struct mapped *log, uint32_t *number, const uint8_t **bytes, size_t *n)
{
    char text[80];
    const char *name = words[0], *why = parse_number(words[1], number);
    if (why != NULL) {
        say_failure(words[1], why);
        return usage(help);
    }
    if (!map_log(name, log))
        return FAILED;
    uint32_t segments = number_at(log->bytes);
    if (*number < segments) {
        *bytes = log->bytes + number_at(entry_at(log, *number));
        *n = number_at(entry_at(log, *number) + 4);
        return DONE;
    }
    snprintf(text, sizeof text, "no segment %" PRIu32 ": it has %" PRIu32 ", numbered from 0", *number, segments);
    say_failure(file_name(name), text);
    return NO;
}

static int log_show(const struct options *options, int n, char **words)
{
    (void)n;
    struct mapped log;
    struct capture capture;
    const uint8_t *bytes;
    uint32_t number;
    size_t count;
    int status = find_segment(HELP_SHOW_LOG, words, &log, &number, &bytes, &count);
    if (status != DONE)
        return status;
    open_memory(file_name(words[0]), bytes, count, &capture);
    capture.segment = number;
    return printed(show_capture(&capture, options));
}

static int log_extract(const struct options *options, int n, char **words)
{
    (void)options, (void)n;
    struct mapped log;
    struct output output;
    const uint8_t *bytes;
    uint32_t number;
    size_t count;
    int status = find_segment(HELP_EXTRACT, words, &log, &number, &bytes, &count);
    if (status != DONE)
        return status;
    if (!may_be_written(words[2]))
        return FAILED;
    if (same_file(words[2], &log)) {
        say_failure(words[2], "the log and the capture to be written are one file");
        return FAILED;
    }
    if (!begin_output(words[2], count, &output))
        return FAILED;
    memcpy(output.bytes, bytes, count);
    return finish_output(&output) ? DONE : FAILED;
}

/* ---- dxl log list */

static void print_segment(const uint8_t *bytes, size_t n, uint32_t number, uint32_t start)
{
    uint8_t there[256] = {0};
    size_t packets = 0, bad = 0;
    for (struct dxl_event event = dxl_next_event(bytes, n, 0); event.kind != DXL_NO_EVENT;
         event = dxl_next_event(bytes, n, event.next)) {
        packets += event.kind == DXL_PACKET;
        bad += event.kind == DXL_BAD_CHECKSUM;
        there[event.id] |= event.kind == DXL_PACKET;
    }
    printf("segment %" PRIu32 ": %zu byte%s at %" PRIu32 ", %zu packet%s, %zu bad checksum%s", number, n, n == 1 ? "" : "s", start,
           packets, packets == 1 ? "" : "s", bad, bad == 1 ? "" : "s");
    const char *before = "; IDs ";
    for (unsigned id = 0; id < sizeof there; id++) {
        if (there[id])
            printf("%s%u", before, id);
        before = there[id] ? ", " : before;
    }
    putchar('\n');
}

static int log_list(const struct options *options, int n, char **words)
{
    (void)options, (void)n;
    struct mapped log;
    if (!map_log(words[0], &log))
        return FAILED;
    if (!isatty(STDOUT_FILENO))
        begin_work("reading the segments");
    for (uint32_t i = 0; i < number_at(log.bytes) && !ferror(stdout); i++) {
        uint32_t start = number_at(entry_at(&log, i));
        print_segment(log.bytes + start, number_at(entry_at(&log, i) + 4), i, start);
    }
    end_work();
    return printed(DONE);
}

/* ---- dxl log last */

/* All IDs that have a packet. */
static int last_of_all(const struct mapped *log)
{
    int any = 0;
    for (unsigned id = 0; id <= DXL_BROADCAST_ID; id++) {
        struct dxl_found answer = dxl_log_last(log->bytes, log->count, (uint8_t)id);
        if (answer.found == 1)
            printf("ID %u: segment %zu offset %zu\n", id, answer.segment, answer.offset);
        any |= answer.found == 1;
    }
    if (!any)
        puts("no packet for any ID");
    return printed(any ? DONE : NO);
}

static int last_of_one(const char *name, const struct mapped *log, uint8_t id)
{
    char who[16];
    begin_work("reading the segment that the index names");
    struct dxl_found answer = dxl_log_last(log->bytes, log->count, id);
    end_work();
    if (answer.found == -DXL_BAD_LOG_ID) {
        snprintf(who, sizeof who, "%u", (unsigned)id);
        say_failure(who, reason(answer.found));
        return FAILED;
    }
    if (answer.found < 0)
        return refuse_log(name, log, answer.found) ? DONE : FAILED;
    if (answer.found == 0) {
        printf("no packet for ID %u\n", (unsigned)id);
        return printed(NO);
    }
    printf("segment %zu offset %zu\n", answer.segment, answer.offset);
    return printed(DONE);
}

static int log_last(const struct options *options, int n, char **words)
{
    (void)options;
    uint8_t id = 0;
    struct mapped log;
    const char *why = n == 2 ? parse_id(words[1], &id) : NULL;
    if (why != NULL) {
        say_failure(words[1], why);
        return usage(HELP_LAST);
    }
    if (n == 2)
        return map_file(words[0], &log) ? last_of_one(words[0], &log, id) : FAILED;
    return map_log(words[0], &log) ? last_of_all(&log) : FAILED;
}

/* ---- words */

int log_command(int n, char **words)
{
    static const struct command commands[] = {
        {"write", HELP_WRITE, "OUT CAPTURE", 2, ANY, "", log_write},
        {"check", HELP_CHECK, "LOG", 1, 1, "", log_check},
        {"list", HELP_LIST, "LOG", 1, 1, "", log_list},
        {"show", HELP_SHOW_LOG, "LOG N", 2, 2, PRINT_OPTIONS, log_show},
        {"extract", HELP_EXTRACT, "LOG N OUT", 3, 3, "", log_extract},
        {"last", HELP_LAST, "LOG", 1, 2, "", log_last},
        {"salvage", HELP_SALVAGE, "LOG OUT", 2, 2, "", log_salvage},
    };
    return run_command(commands, sizeof commands / sizeof *commands, "log", HELP, n, words);
}
