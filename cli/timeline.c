#include "timeline.h"

#include <inttypes.h>
#include <stdio.h>
#include <string.h>
#include <unistd.h>

#include "events.h"
#include "files.h"
#include "json.h"
#include "say.h"
#include "text.h"

const char HELP_TIMELINE[] =
    "usage: dxl timeline [--protocol 2|1|mercury] [--gap MICROSECONDS] [--baud N] [--raw] FILE > OUT.html\n"
    "\n"
    "Prints a page that shows the capture over time, or over its bytes where it has no times: a lane for each ID, instructions and\n"
    "statuses as bars, bad checksums, noise and missing statuses marked, and the list of 'dxl show' beside them. The page needs a browser\n"
    "and no network. The wheel zooms, dragging moves, a double click shows all; what an event means stands beside the pointer.\n"
    "\n"
    "FILE - is standard input. The options mean what they do in 'dxl show'. With times, --baud makes a bar as long as its bytes took. Pages of\n"
    "ten thousand events are quick; of a long capture, cut out what you want to see.\n";

/* The lines of timeline.html, made by the Makefile. */
static const char *const page[] = {
#include "timeline_page.h"
};

static const char EVENTS_LINE[] = "@EVENTS@\n", ABOUT_LINE[] = "@ABOUT@\n";

/* Prints the page's lines from one on up to one that stands for something else, or to the end; which line follows that. */
static size_t put_page(size_t from, const char *up_to)
{
    size_t i = from;
    while (i < sizeof page / sizeof *page && (up_to == NULL || strcmp(page[i], up_to) != 0))
        fputs(page[i++], stdout);
    return i + 1;
}

/* In microseconds, or in bytes. */
static void put_places(const struct event *event)
{
    const struct item *item = event->item;
    if (item == NULL)
        printf("%.3f,%.3f,%" PRIu64 ",0", (double)(event->time - event->delay) / 1e3, (double)event->time / 1e3, event->offset);
    else if (item->timed)
        printf("%.3f,%.3f,%" PRIu64 ",%" PRIu64, (double)item->first / 1e3, (double)item->last / 1e3, item->offset, item->length);
    else
        printf("%" PRIu64 ",%" PRIu64 ",%" PRIu64 ",%" PRIu64, item->offset, item->offset + item->length, item->offset, item->length);
}

/* What stands in a bar that has room for it. */
static void put_label(const struct event *event)
{
    const struct meaning *meaning = event->meaning;
    if (event->item == NULL || event->item->kind != PACKET)
        fputs(kind_word(event), stdout);
    else if (!meaning->status)
        fputs(meaning->name != NULL ? meaning->name : "undefined", stdout);
    else if (meaning->code == 0)
        fputs("ok", stdout);
    else
        printf("error %02X", meaning->code);
}

static int put_row(void *hearer, const struct event *event)
{
    static const char signs[] = "><!~?";
    const struct options *options = hearer;
    printf("[%d,%d,", (int)(strchr(signs, sign_of(event)) - signs), event->id);
    put_places(event);
    printf(",%d,", is_trouble(event));
    if (event->item == NULL || event->answers != NO_ANSWER)
        printf("%" PRIu64, event->asked);
    else
        fputs("-1", stdout);
    fputs(",\"", stdout);
    put_label(event);
    fputs("\",\"", stdout);
    put_event(stdout, options->protocol, event);
    fputs("\"],\n", stdout);
    return !ferror(stdout);
}

static void put_about(const char *name, const struct totals *totals)
{
    fputs("{name: ", stdout);
    put_json_name(stdout, name);
    printf(", timed: %s, first: %.3f, totals: \"", totals->timed ? "true" : "false", (double)totals->first / 1e3);
    put_totals(stdout, totals);
    fputs("\"}\n", stdout);
}

/* Nothing is printed before the capture could be opened. */
int timeline_command(const struct options *options, int n, char **words)
{
    (void)n;
    struct capture capture;
    struct totals totals;
    struct options own = *options;
    listen_to_ends();
    if (!open_capture(words[0], options, &capture))
        return FAILED;
    if (isatty(STDOUT_FILENO)) {
        close_capture(&capture);
        say_failure("standard output", "a page for a browser is printed: send it to a file, > OUT.html");
        return usage(HELP_TIMELINE);
    }
    begin_work("reading the capture");
    size_t next = put_page(0, EVENTS_LINE);
    int good = read_events(&capture, options->protocol, put_row, &own, &totals);
    end_work();
    close_capture(&capture);
    next = put_page(next, ABOUT_LINE);
    put_about(capture.name, &totals);
    put_page(next, NULL);
    return printed(good ? DONE : FAILED);
}
