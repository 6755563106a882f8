/* dxl log salvage: a sound log of what is whole in a cut one. */
#include <inttypes.h>
#include <stdio.h>
#include <stdlib.h>

#include "files.h"
#include "log.h"
#include "log_file.h"
#include "say.h"

const char HELP_SALVAGE[] =
    "usage: dxl log salvage LOG OUT\n"
    "\n"
    "Writes to OUT a sound log of what is whole in LOG, whose tail may be cut off or whose directory may be wrong, and prints what was\n"
    "altered: the segments of LOG that were dropped, from 0, with the reason (1, it starts before the end of the index or of the last\n"
    "segment kept; 2, it ends behind the end of the file), those side by side with one reason in one line; whether the header changed,\n"
    "how many of the 254 index numbers did, and how many bytes behind the old index lie in no segment that was kept. It ends with 0\n"
    "where nothing was altered, and with 4 where something was altered or dropped.\n"
    "\n"
    "The count of segments is the header's. Where the place of the index in the header tells another one, a warning says both: if most\n"
    "segments are dropped, the count may be what was damaged.\n"
    "\n"
    "LOG is only read; it must not change meanwhile, and OUT must not be the same file. An OUT that is there is replaced once the new\n"
    "log is complete; until then it stays, and the folder needs room for a file as long as LOG. A link is replaced itself. A file of\n"
    "fewer than 1032 or of more than 4294967295 bytes is refused, 33. LOG - is standard input.\n";

/* A file that is to be salvaged, and the places for the numbers of its dropped segments. */
struct cut_log {
    const char *name;
    struct mapped file;
    uint32_t *report;
    size_t numbers;
};

/* Without room the call tells whether the file has a size that is accepted at all: it refuses that first. */
static int has_log_size(const struct cut_log *log)
{
    uint8_t byte;
    uint32_t number;
    int64_t refusal = dxl_log_salvage(log->file.bytes, log->file.count, &byte, 0, &number, 0).count;
    return refusal != -DXL_BAD_LOG_SIZE || say_failure(file_name(log->name), reason(refusal));
}

/* Two numbers for each segment that the file may have. */
static int make_report(struct cut_log *log)
{
    size_t entries = (log->file.count - DXL_LOG_FRONT) / DXL_LOG_ENTRY, told = number_at(log->file.bytes);
    log->numbers = 2 * (told < entries ? told : entries);
    log->report = calloc(log->numbers + 1, sizeof *log->report);
    return log->report != NULL || say_failure(file_name(log->name), "no memory");
}

static void print_count(size_t n, const char *what, const char *after)
{
    printf("%zu %s%s%s\n", n, what, n == 1 ? "" : "s", after);
}

/* Entries side by side that were dropped for one reason are one line. */
static void print_dropped(const uint32_t *report, size_t n)
{
    for (size_t i = 0, next; i < n; i = next) {
        for (next = i + 1; next < n; next++)
            if (report[2 * next] != report[2 * next - 2] + 1 || report[2 * next + 1] != report[2 * i + 1])
                break;
        if (next == i + 1)
            printf("segment %" PRIu32 " dropped: ", report[2 * i]);
        else
            printf("segments %" PRIu32 " to %" PRIu32 " dropped: ", report[2 * i], report[2 * next - 2]);
        puts(report[2 * i + 1] == DXL_BAD_START ? "1, it starts before the end of the index or of the last segment kept"
                                                : "2, it ends behind the end of the file");
    }
}

static void print_report(const struct cut_log *log, const char *out, const struct dxl_salvaged *salvaged, unsigned kept)
{
    put_name(stdout, file_name(log->name));
    printf(": %u of %zu segments kept, %lld bytes written to ", kept, kept + salvaged->dropped, (long long)salvaged->count);
    put_name(stdout, out);
    putchar('\n');
    print_dropped(log->report, salvaged->dropped);
    printf("header %s\n", salvaged->header_changed ? "changed" : "unchanged");
    print_count(salvaged->index_changed, "index number", " changed");
    print_count(salvaged->leftover, "byte", " left over");
}

/* The header tells the count of segments twice; which of the two is right nobody can say. */
static void warn_of_count(const struct cut_log *log)
{
    char why[120];
    uint32_t count = number_at(log->file.bytes), place = number_at(log->file.bytes + 12);
    if ((uint64_t)place == LOG_HEADER + DXL_LOG_ENTRY * (uint64_t)count) {
        snprintf(why, sizeof why, "warning: its header counts %" PRIu32 " segments, and the file ends behind the entries of %zu", count,
                 log->numbers / 2);
        if (log->numbers / 2 < count)
            say_failure(file_name(log->name), why);
        return;
    }
    int tells = place >= LOG_HEADER && (place - LOG_HEADER) % DXL_LOG_ENTRY == 0;
    if (tells)
        snprintf(why, sizeof why, "warning: its header counts %" PRIu32 " segments, and the place of its index tells %" PRIu32, count,
                 (place - LOG_HEADER) / DXL_LOG_ENTRY);
    else
        snprintf(why, sizeof why, "warning: its header counts %" PRIu32 " segments, and the place of its index, %" PRIu32 ", is none",
                 count, place);
    say_failure(file_name(log->name), why);
}

static int has_altered(const struct dxl_salvaged *salvaged)
{
    return salvaged->dropped > 0 || salvaged->index_changed > 0 || salvaged->leftover > 0 || salvaged->header_changed;
}

static int write_salvaged(struct cut_log *log, const char *out)
{
    struct output output;
    if (!may_be_written(out) || !map_file(log->name, &log->file))
        return FAILED;
    if (same_file(out, &log->file)) {
        say_failure(file_name(log->name), "the log that is read and the one to be written are one file");
        return FAILED;
    }
    if (!has_log_size(log) || !make_report(log) || !begin_output(out, log->file.count, &output))
        return FAILED;
    struct dxl_salvaged salvaged =
        dxl_log_salvage(log->file.bytes, log->file.count, output.bytes, output.count, log->report, log->numbers);
    if (salvaged.count < 0) /* not expected: the size was tested, and there is room */
        return give_up(&output, reason(salvaged.count)) ? DONE : FAILED;
    unsigned kept = number_at(output.bytes);
    output.length = (size_t)salvaged.count;
    if (!finish_output(&output))
        return FAILED;
    end_work();
    warn_of_count(log);
    print_report(log, out, &salvaged, kept);
    return printed(has_altered(&salvaged) ? ALTERED : DONE);
}

int log_salvage(const struct options *options, int n, char **words)
{
    (void)options, (void)n;
    struct cut_log log = {.name = words[0]};
    begin_work("salvaging the log");
    int status = write_salvaged(&log, words[1]);
    end_work();
    free(log.report);
    return status;
}

