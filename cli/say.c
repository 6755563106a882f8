#include "say.h"

#include <errno.h>
#include <string.h>

#include "files.h"

/* Whether so many bytes follow that go on with a character. */
static int goes_on(const unsigned char *bytes, size_t n)
{
    for (size_t i = 0; i < n; i++)
        if (bytes[i] < 0x80 || bytes[i] > 0xBF)
            return 0;
    return 1;
}

/* Longer forms than needed, halves of pairs and numbers past the last one are no UTF-8; C2 80 to C2 9F control a terminal. */
size_t printable(const char *text)
{
    const unsigned char *at = (const unsigned char *)text;
    if (at[0] < 0x80)
        return at[0] >= 0x20 && at[0] != 0x7F;
    if (at[0] >= 0xC2 && at[0] <= 0xDF)
        return goes_on(at + 1, 1) && (at[0] != 0xC2 || at[1] >= 0xA0) ? 2 : 0;
    if ((at[0] & 0xF0) == 0xE0)
        return goes_on(at + 1, 2) && (at[0] != 0xE0 || at[1] >= 0xA0) && (at[0] != 0xED || at[1] < 0xA0) ? 3 : 0;
    if (at[0] >= 0xF0 && at[0] <= 0xF4)
        return goes_on(at + 1, 3) && (at[0] != 0xF0 || at[1] >= 0x90) && (at[0] != 0xF4 || at[1] < 0x90) ? 4 : 0;
    return 0;
}

void put_name(FILE *to, const char *name)
{
    while (*name != 0) {
        size_t n = printable(name);
        if (n > 0)
            fwrite(name, 1, n, to);
        else
            fprintf(to, "\\x%02X", (unsigned)(unsigned char)*name);
        name += n > 0 ? n : 1;
    }
}

int say_failure(const char *name, const char *why)
{
    end_work();
    fputs("dxl: ", stderr);
    put_name(stderr, name);
    fprintf(stderr, ": %s\n", why);
    return 0;
}

int say_line(const char *name, size_t line, const char *why)
{
    end_work();
    fputs("dxl: ", stderr);
    put_name(stderr, name);
    fprintf(stderr, ":%zu: %s\n", line, why);
    return 0;
}

int printed(int status)
{
    if (fflush(stdout) == 0 && !ferror(stdout))
        return status;
    say_failure("standard output", strerror(errno));
    return FAILED;
}
