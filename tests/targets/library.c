/*
 * As much of a C library as the tests of tests/c call. What is printed has its conversions left as they stand: which test failed is
 * enough. The files are the texts that packets.S has.
 */
#include "include/stdio.h"
#include "include/stdlib.h"
#include "include/string.h"
#include "targets.h"

extern const char packets[], packets_end[], packets_v1[], packets_v1_end[];

struct library_file {
    const char *at, *end;
};

int fprintf(FILE *file, const char *text, ...)
{
    (void)file;
    say(text);
    return 0;
}

int printf(const char *text, ...)
{
    say(text);
    return 0;
}

FILE *fopen(const char *name, const char *mode)
{
    static FILE files[2];
    int old = strstr(name, "v1") != NULL;
    (void)mode;
    files[old].at = old ? packets_v1 : packets;
    files[old].end = old ? packets_v1_end : packets_end;
    return &files[old];
}

int fclose(FILE *file)
{
    (void)file;
    return 0;
}

char *fgets(char *line, int room, FILE *file)
{
    int n = 0;
    while (n < room - 1 && file->at < file->end && (n == 0 || line[n - 1] != '\n'))
        line[n++] = *file->at++;
    line[n] = '\0';
    return n > 0 ? line : NULL;
}

static int digit(char c)
{
    return c >= '0' && c <= '9' ? c - '0' : c >= 'A' && c <= 'F' ? c - 'A' + 10 : 16;
}

/* Of hexadecimal digits only. */
unsigned long strtoul(const char *text, char **end, int base)
{
    unsigned long value = 0;
    const char *at = text;
    (void)base;
    while (*at == ' ')
        at++;
    if (digit(*at) == 16)
        at = text;
    for (; digit(*at) < 16; at++)
        value = value * 16 + (unsigned long)digit(*at);
    *end = (char *)at;
    return value;
}

char *strrchr(const char *text, int c)
{
    const char *found = NULL;
    for (; *text != '\0'; text++)
        found = *text == c ? text : found;
    return (char *)found;
}

char *strstr(const char *text, const char *part)
{
    for (; *text != '\0'; text++) {
        size_t n = 0;
        while (part[n] != '\0' && text[n] == part[n])
            n++;
        if (part[n] == '\0')
            return (char *)text;
    }
    return NULL;
}
