/*
 * dxl: captures, line logs, plans of goals and a master on a bench computer. `dxl --help` says what it does. What is found, tested and
 * written is found, tested and written by the exports of Mednukals; the tool reads files, talks to devices and prints.
 */
#include <stdio.h>
#include <string.h>

#include "files.h"
#include "log.h"
#include "mednukals.h"
#include "plan.h"
#include "say.h"
#include "send.h"
#include "show.h"
#include "timeline.h"

static const char HELP[] =
    "usage: dxl show FILE...              print what a capture holds: packets, statuses, bad checksums, noise\n"
    "       dxl timeline FILE             the same as a page for a browser, on standard output\n"
    "       dxl log COMMAND ...           line logs: write, check, list, show, extract, last, salvage\n"
    "       dxl plan COMMAND ...          plans of goals: make, check, show\n"
    "       dxl send LINE COMMAND ...     talk to devices on a serial line: scan, read and write registers, send a plan\n"
    "       dxl COMMAND --help            say more of a command\n"
    "       dxl --version\n"
    "\n"
    "Where a file is read, - is standard input. It ends with 0 where all is well, 1 where the answer is no (a log that is not sound, a\n"
    "plan that is not accepted, no packet for an ID, a device that refuses), 2 where it does not know the words, 3 where a file cannot be\n"
    "read or written or is refused, or a device does not answer, and 4 where a salvage has altered something; then it says why.\n";

int main(int n, char **words)
{
    static const struct command commands[] = {
        {"show", HELP_SHOW, "FILE", 1, ANY, PRINT_OPTIONS CAPTURE_OPTIONS, show_command},
        {"timeline", HELP_TIMELINE, "FILE", 1, 1, "--protocol= " CAPTURE_OPTIONS, timeline_command},
        {"send", HELP_SEND, "LINE COMMAND", 2, ANY, SEND_OPTIONS, send_command},
    };
    hold_streams();
    if (n == 2 && strcmp(words[1], "--version") == 0) {
        printf("dxl %s\n", DXL_VERSION);
        return printed(DONE);
    }
    if (n >= 2 && strcmp(words[1], "log") == 0)
        return log_command(n - 2, words + 2);
    if (n >= 2 && strcmp(words[1], "plan") == 0)
        return plan_command(n - 2, words + 2);
    return run_command(commands, sizeof commands / sizeof *commands, "", HELP, n - 1, words + 1);
}
