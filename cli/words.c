#include "words.h"

#include <stdio.h>
#include <string.h>

#include "say.h"

enum { MESSAGE = 200 };

/* ---- help */

int print_help(const char *help)
{
    fputs(help, stdout);
    return printed(DONE);
}

/* The lines up to the first blank one: the message stands right above them. */
int usage(const char *help)
{
    const char *end = strstr(help, "\n\n");
    fwrite(help, 1, end == NULL ? strlen(help) : (size_t)(end + 1 - help), stderr);
    return USAGE;
}

static int asks_for_help(const char *word)
{
    return strcmp(word, "--help") == 0 || strcmp(word, "-h") == 0;
}

/* ---- numbers */

enum fault { GOOD, IN_HEX, NO_NUMBER, TOO_LARGE };

static enum fault read_number(const char *word, uint32_t *number)
{
    uint64_t value = 0;
    size_t n = strlen(word);
    if (strncmp(word, "0x", 2) == 0 || strncmp(word, "0X", 2) == 0)
        return IN_HEX;
    if (n == 0 || strspn(word, "0123456789") != n)
        return NO_NUMBER;
    for (size_t i = 0; i < n; i++)
        value = value > UINT32_MAX ? value : value * 10 + (unsigned)(word[i] - '0');
    *number = (uint32_t)value;
    return value > UINT32_MAX ? TOO_LARGE : GOOD;
}

const char *parse_number(const char *word, uint32_t *number)
{
    static const char *const faults[] = {NULL, "numbers are given in decimal", "not a number", "too large"};
    return faults[read_number(word, number)];
}

const char *parse_id(const char *word, uint8_t *id)
{
    static const char *const faults[] = {NULL, "an ID is given in decimal: 0 to 252, or 254 for all devices",
                                         "not a number; an ID is 0 to 252, or 254 for all devices",
                                         "not an ID: 0 to 252, or 254 for all devices"};
    uint32_t value = 0;
    enum fault fault = read_number(word, &value);
    if (fault == GOOD && value > 255)
        fault = TOO_LARGE;
    *id = (uint8_t)value;
    return faults[fault];
}

/* ---- options */

static const char *set_within(uint32_t number, uint32_t least, uint32_t most, int *value, const char *why)
{
    *value = (int)number;
    return number < least || number > most ? why : NULL;
}

static const char *set_baud(uint32_t number, struct options *options)
{
    if (number < 300)
        return "a line has 300 bits per second or more";
    options->baud = number;
    options->byte_time = (INT64_C(10000000000) + number / 2) / number; /* ten bits */
    return NULL;
}

/* What is wrong with the value of an option, or null. */
static const char *set_value(const char *name, const char *value, struct options *options)
{
    uint8_t id;
    uint32_t number = 0;
    const char *why;
    if (strcmp(name, "--protocol=") == 0) {
        options->protocol = find_protocol(value);
        return options->protocol == NULL ? "a protocol is 2, 1 or mercury" : NULL;
    }
    if (strcmp(name, "--id=") == 0) {
        why = parse_id(value, &id);
        options->id = id;
        return why == NULL && id == 255 ? "255 is never an ID" : why;
    }
    why = parse_number(value, &number);
    if (why != NULL)
        return why;
    if (strcmp(name, "--gap=") == 0)
        options->gap = (int64_t)number * 1000;
    else if (strcmp(name, "--timeout=") == 0)
        return set_within(number, 1, 60000, &options->timeout, "a timeout is 1 to 60000 milliseconds");
    else if (strcmp(name, "--retries=") == 0)
        return set_within(number, 0, 100, &options->retries, "0 to 100 of them");
    else
        return set_baud(number, options);
    return NULL;
}

static void set_flag(const char *name, struct options *options)
{
    if (strcmp(name, "--hex") == 0)
        options->hex = 1;
    else if (strcmp(name, "--json") == 0)
        options->json = 1;
    else if (strcmp(name, "--errors") == 0)
        options->errors = 1;
    else
        options->raw = 1;
}

/* The option of the list that the word begins, or its length 0: `--id` and `--id=7` are both `--id=`. */
static size_t find_option(const char *list, const char *word, const char **found)
{
    size_t n = strcspn(word, "=");
    for (*found = list; **found != 0; *found += strcspn(*found, " ") + 1) {
        size_t all = strcspn(*found, " "), name = strcspn(*found, "= ");
        if (n == name && strncmp(word, *found, n) == 0 && (word[n] == 0 || all > name))
            return all;
    }
    return 0;
}

/* Takes the option at words[at] and its value; what is left are operands. Returns how many words it had, or 0 with a message. */
static int take_option(const struct command *command, int n, char **words, struct options *options)
{
    const char *found, *equals = strchr(words[0], '='), *value, *why;
    char name[16] = "", message[MESSAGE];
    size_t length = find_option(command->options, words[0], &found);
    if (length == 0 || length >= sizeof name)
        return say_failure(words[0], "no such option; a file of this name is given with ./ before it");
    memcpy(name, found, length);
    name[length] = 0;
    if (name[length - 1] != '=') {
        set_flag(name, options);
        return 1;
    }
    if (equals == NULL && n < 2)
        return say_failure(words[0], "its value is missing");
    value = equals != NULL ? equals + 1 : words[1];
    why = set_value(name, value, options);
    if (why == NULL)
        return equals != NULL ? 1 : 2;
    snprintf(message, sizeof message, "%.*s %s", (int)length - 1, name, value);
    return say_failure(message, why);
}

static int is_operand(const struct command *command, const char *word)
{
    return word[0] != '-' || word[1] == 0 || (word[1] >= '0' && word[1] <= '9' && strstr(command->options, "-0 ") != NULL);
}

/* Sorts options and operands apart: the operands come to the front. Returns how many there are, or -1 with a message. */
static int take_options(const struct command *command, int n, char **words, struct options *options)
{
    int operands = 0;
    for (int at = 0; at < n;) {
        if (is_operand(command, words[at])) {
            words[operands++] = words[at++];
            continue;
        }
        int taken = take_option(command, n - at, words + at, options);
        if (taken == 0)
            return -1;
        at += taken;
    }
    if (options->id == 253 && strcmp(options->protocol->name, "1") != 0) {
        say_failure("--id 253", "253 is an ID in Protocol 1.0 only");
        return -1;
    }
    return operands;
}

/* ---- commands */

/* `log last: ID is missing`, or `c: one word too many`. */
static void say_operands(const struct command *command, const char *group, int n, char **words)
{
    char message[MESSAGE], place[MESSAGE];
    if (n > command->most) {
        say_failure(words[command->most], "one word too many");
        return;
    }
    const char *operand = command->operands;
    for (int i = 0; i < n; i++)
        operand += strcspn(operand, " ") + 1;
    snprintf(place, sizeof place, "%s%s%s", group, group[0] == 0 ? "" : " ", command->name);
    snprintf(message, sizeof message, "%.*s is missing", (int)strcspn(operand, " "), operand);
    say_failure(place, message);
}

int operands_fit(const struct command *command, const char *group, int n, char **words)
{
    if (n >= command->least && n <= command->most)
        return 1;
    say_operands(command, group, n, words);
    return 0;
}

static int run_found(const struct command *command, const char *group, int n, char **words)
{
    struct options options = {.id = -1, .protocol = find_protocol("2"), .gap = 1500000, .timeout = -1, .retries = -1};
    for (int i = 0; i < n; i++)
        if (asks_for_help(words[i]))
            return print_help(command->help);
    n = take_options(command, n, words, &options);
    if (n < 0 || !operands_fit(command, group, n, words))
        return usage(command->help);
    return command->run(&options, n, words);
}

int run_command(const struct command *commands, size_t count, const char *group, const char *help, int n, char **words)
{
    if (n >= 1 && asks_for_help(words[0]))
        return print_help(help);
    for (size_t i = 0; n >= 1 && i < count; i++)
        if (strcmp(words[0], commands[i].name) == 0)
            return run_found(&commands[i], group, n - 1, words + 1);
    if (n >= 1)
        say_failure(words[0], "no such command");
    else if (group[0] != 0)
        say_failure(group, "a command is missing");
    else
        fputs("dxl: a command is missing\n", stderr);
    return usage(help);
}
