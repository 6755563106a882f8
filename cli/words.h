/* The words behind the tool's name: commands, options and numbers. */
#ifndef WORDS_H
#define WORDS_H

#include <stddef.h>
#include <stdint.h>

#include "protocol.h"

/* What the options of a command say. */
struct options {
    int hex, json, errors, raw;
    int id;                          /* -1: of any ID */
    const struct protocol *protocol; /* Protocol 2.0, if no option says otherwise */
    int64_t gap;                     /* nanoseconds: a longer silence ends a segment */
    int64_t byte_time;               /* nanoseconds that a byte takes; 0 where the speed is not known */
    uint32_t baud;                   /* bits per second; 0 where --baud is not given */
    int timeout, retries;            /* milliseconds, and how often; -1 where they are not given */
};

/* A command. Its help begins with the lines of usage, and a blank line follows them. */
struct command {
    const char *name;
    const char *help;
    const char *operands; /* their names, with a space between */
    int least, most;      /* how many of them are given */
    const char *options;  /* those that it takes, with a space behind each; one with = takes a value; with -0, a number may have a sign */
    int (*run)(const struct options *options, int n, char **words);
};

/* More operands than anyone has. */
enum { ANY = 1 << 30 };

/* Runs the command that the first word names; `group` is the word before it, or empty. Returns how the program ends. */
int run_command(const struct command *commands, size_t count, const char *group, const char *help, int n, char **words);

/* Whether there are as many operands as the command takes; where not, it has said what is wrong. */
int operands_fit(const struct command *command, const char *group, int n, char **words);

/* Prints a help; where the tool was not understood, its lines of usage on standard error. Return how the program ends. */
int print_help(const char *help);
int usage(const char *help);

/* Null for an ID of 0 to 255 in decimal digits, or what is wrong with the word. */
const char *parse_id(const char *word, uint8_t *id);

/* Null for a number in decimal digits, at most 4,294,967,295, or what is wrong with the word. */
const char *parse_number(const char *word, uint32_t *number);

#endif
