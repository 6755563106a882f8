#include "show.h"

#include <inttypes.h>
#include <stdio.h>
#include <string.h>
#include <unistd.h>

#include "events.h"
#include "files.h"
#include "json.h"
#include "say.h"
#include "text.h"

const char HELP_SHOW[] =
    "usage: dxl show [--hex] [--json] [--errors] [--id N] [--protocol 2|1|mercury]\n"
    "                [--gap MICROSECONDS] [--baud N] [--raw] FILE...\n"
    "\n"
    "Prints a line for each thing in a capture, in order: its time where the capture has times, its offset in bytes, a sign, the ID\n"
    "and what it means. FILE - is standard input.\n"
    "\n"
    "  >  an instruction, with the registers that it names and their values\n"
    "  <  a status: its error in words, the registers that were read, and in brackets what it answers\n"
    "  !  a bad checksum: all bytes of a packet are there and the checksum is wrong. Its ID, or anything else in it, may be wrong\n"
    "  ~  noise: bytes that are in no packet and in no bad checksum, and why the longest beginning of a packet in them became none\n"
    "  ?  a missing status, only in a capture with times: the next instruction, or the end, came first. A device whose status return\n"
    "     level is below 2 does not answer a Write, and one with level 0 answers Ping only: it is listed all the same\n"
    "\n"
    "Noise is noise because of one of these, the part of the longest beginning that is wrong:\n"
    "  header    fewer bytes of the header than it has, and then another one\n"
    "  ID        a header, and then a byte that is never an ID\n"
    "  length    header and ID, and then a length that no packet has\n"
    "  stuffing  all bytes, the right checksum, and FF FF FD in the body without an FD behind it\n"
    "  cut off   the segment ends before the packet does: at a gap, or with the capture\n"
    "A wrong checksum is a line of its own, and the bytes that it announces are in it; packets among them are marked 'inside'.\n"
    "\n"
    "A status is paired with the last instruction before it, where that is for its ID, lists it or is a Ping to all devices, and with\n"
    "none further back; with error 03, with the last bad checksum of its ID. In Protocol 1.0 and Mercury nothing in a packet\n"
    "says whether it is a status: the first one with the ID of the instruction before it is taken for one, and register names are not\n"
    "known there.\n"
    "\n"
    "A capture is raw bytes, which are one segment, or text: in each line a time in seconds and then bytes in hex, with blanks or\n"
    "commas between; or bytes in hex alone. The first word decides: pairs of hex digits are bytes, so write a time with a point, 12.0.\n"
    "A comma never stands for the point. 0x may stand before a byte, # begins a comment, and a first line of words is a heading.\n"
    "With times, a silence of more than 1.5 ms ends a segment, and statuses are shown with their delay. All bytes of a line have its\n"
    "time, unless --baud says how long a byte takes. A file that begins with 256 printed characters, or has no others, is text.\n"
    "\n"
    "  --hex            the bytes beside it; of noise the first 32\n"
    "  --json           an object for each line, and no totals. Its keys, where they apply: file, kind, id, segment, offset, length, time,\n"
    "                   code, instruction, error, alert, registers (with id, address, count, name, value, bytes), ids, data, stuffed,\n"
    "                   reason, at, agreed, inside, answers, delay, unanswered, waited, bytes (with --hex) and text. Times are seconds;\n"
    "                   inside, answers and unanswered are offsets\n"
    "  --errors         only what went wrong: signs ! ~ ?, and statuses with an error or the alert\n"
    "  --id N           only what is for ID N, from it, or lists it; 254 for what is sent to all devices\n"
    "                   The last line counts the whole capture, also with --errors and --id\n"
    "  --protocol P     2 (if not given), 1 or mercury\n"
    "  --gap N          with times, a silence of more than N microseconds ends a segment (1500)\n"
    "  --baud N         with times, a byte takes ten bits at N bits per second\n"
    "  --raw            take the file as raw bytes, also where it looks like text\n"
    "\n"
    "It ends with 0 where all was read and printed, 2 where it does not know the words, and 3 where a file cannot be read or its text\n"
    "is not a capture, or the lines cannot be printed.\n";

struct printer {
    const struct options *options;
    const char *file;
    int colour;
};

static const char *colour_of(const struct event *event)
{
    switch (sign_of(event)) {
    case '>':
        return "\033[1m";
    case '<':
        return is_trouble(event) ? "\033[31m" : "\033[32m";
    case '~':
        return "\033[33m";
    default:
        return "\033[31m";
    }
}

static void put_front(const struct event *event, int timed)
{
    if (timed)
        printf("%12.6f", (double)event->time / 1e9);
    printf("%8" PRIu64 "  %c  ", event->offset, sign_of(event));
    put_who(stdout, event->id);
}

/* A missing status is told only where the capture has times. */
static void print_line(const struct printer *printer, const struct event *event)
{
    if (printer->colour)
        fputs(colour_of(event), stdout);
    put_front(event, event->item == NULL || event->item->timed);
    put_event(stdout, printer->options->protocol, event);
    if (printer->options->hex && event->item != NULL) {
        fputs("  | ", stdout);
        put_bytes(stdout, event->item->bytes, event->item->n);
        fputs(event->item->n < event->item->length ? " .." : "", stdout);
    }
    fputs(printer->colour ? "\033[0m\n" : "\n", stdout);
}

/* Until nobody takes what is printed. */
static int print_event(void *hearer, const struct event *event)
{
    const struct printer *printer = hearer;
    if (printer->options->errors && !is_trouble(event))
        return 1;
    if (printer->options->id >= 0 && !is_about(event, printer->options->id))
        return 1;
    if (printer->options->json)
        put_json(stdout, printer->file, printer->options, event);
    else
        print_line(printer, event);
    return !ferror(stdout);
}

int show_capture(struct capture *capture, const struct options *options)
{
    struct totals totals;
    int colour = !options->json && isatty(STDOUT_FILENO);
    struct printer printer = {options, capture->name, colour};
    if (!isatty(STDOUT_FILENO)) /* on a terminal the lines themselves are seen */
        begin_work("reading the capture");
    int good = read_events(capture, options->protocol, print_event, &printer, &totals);
    end_work();
    close_capture(capture);
    if (good && !options->json) {
        put_totals(stdout, &totals);
        putchar('\n');
    }
    return good ? DONE : FAILED;
}

static int show_file(const struct options *options, const char *name)
{
    struct capture capture;
    return open_capture(name, options, &capture) ? show_capture(&capture, options) : FAILED;
}

/* A file that cannot be read does not keep those behind it from being shown. */
int show_command(const struct options *options, int n, char **words)
{
    int status = DONE;
    listen_to_ends();
    for (int i = 0; i < n; i++) {
        if (n > 1 && !options->json) {
            fputs(i == 0 ? "" : "\n", stdout);
            put_name(stdout, words[i]);
            fputs(":\n", stdout);
        }
        if (show_file(options, words[i]) != DONE)
            status = FAILED;
        if (printed(DONE) != DONE)
            return FAILED;
    }
    return status;
}
