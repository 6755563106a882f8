#include "goals.h"

#include <stdio.h>
#include <stdlib.h>
#include <string.h>

#include "files.h"
#include "say.h"

static int is_space(uint8_t byte)
{
    return byte == ' ' || byte == '\t' || byte == '\r';
}

/* A decimal number at the start of the text, without the spaces before it; what follows it. Null where there is none, for -0, or
 * where something other than a space follows. One of many digits stays a large one. */
static const uint8_t *number(const uint8_t *at, const uint8_t *end, long *value)
{
    while (at < end && is_space(*at))
        at++;
    int minus = at < end && *at == '-';
    at += minus;
    const uint8_t *first = at;
    *value = 0;
    for (; at < end && *at >= '0' && *at <= '9'; at++)
        *value = *value > 100000 ? *value : *value * 10 + (*at - '0');
    if (minus && *value == 0)
        return NULL;
    if (minus)
        *value = -*value;
    return at > first && (at == end || is_space(*at)) ? at : NULL;
}

/* Where the line's text ends: before a comment and the spaces at its end. */
static const uint8_t *text_end(const uint8_t *line, const uint8_t *end)
{
    const uint8_t *comment = memchr(line, '#', (size_t)(end - line));
    if (comment != NULL)
        end = comment;
    while (end > line && is_space(end[-1]))
        end--;
    return end;
}

static int read_line(const char *name, size_t line, const uint8_t *at, const uint8_t *end, struct goals *goals)
{
    char why[80];
    long id, goal;
    end = text_end(at, end);
    if (at == end)
        return 1;
    at = number(at, end, &id);
    if (at != NULL)
        at = number(at, end, &goal);
    if (at != end)
        return say_line(file_name(name), line, "not an ID and a goal");
    if (id < 0 || id >= IDS)
        return say_line(file_name(name), line, "the ID is not 0 to 252");
    if (goal < NO_GOAL || goal > MOST_GOAL)
        return say_line(file_name(name), line, "42, the goal is neither 0 to 4095 nor -1, which is none");
    if (goals->line[id] != 0) {
        snprintf(why, sizeof why, "ID %ld stands in line %zu already", id, goals->line[id]);
        return say_line(file_name(name), line, why);
    }
    goals->of[id] = (int32_t)goal;
    goals->line[id] = line;
    goals->wanted += goal != NO_GOAL;
    return 1;
}

void no_goals(struct goals *goals)
{
    memset(goals, 0, sizeof *goals);
    for (size_t id = 0; id < IDS; id++)
        goals->of[id] = NO_GOAL;
}

int read_goals(const char *name, struct goals *goals)
{
    struct mapped file;
    no_goals(goals);
    if (!map_file(name, &file))
        return 0;
    const uint8_t *at = file.bytes, *end = at + file.count;
    for (size_t line = 1; at < end; line++) {
        const uint8_t *stop = memchr(at, '\n', (size_t)(end - at));
        if (stop == NULL)
            stop = end;
        if (!read_line(name, line, at, stop, goals))
            return 0;
        at = stop == end ? end : stop + 1;
    }
    return 1;
}
