#include "capture.h"

#include <errno.h>
#include <fcntl.h>
#include <stdlib.h>
#include <string.h>
#include <sys/stat.h>
#include <unistd.h>

#include "files.h"
#include "say.h"

/* By so many bytes it is told whether a capture is text. */
enum { LOOK = 256 };

enum { NOTHING_LEFT = -1, UNREADABLE = -2 };

/* ---- the bytes of the file */

/* Reads on behind what is left, which comes to the front. Whether that went well; nothing more is left at the end of the file. */
static int refill(struct capture *capture)
{
    ssize_t got = 0;
    if (capture->file < 0)
        return 1;
    memmove(capture->input, capture->at, capture->left);
    do
        got = read(capture->file, capture->input + capture->left, sizeof capture->input - capture->left);
    while (got < 0 && errno == EINTR);
    if (got < 0)
        return say_failure(capture->name, strerror(errno));
    capture->at = capture->input;
    capture->left += (size_t)got;
    capture->done += (size_t)got;
    work_reached(capture->done, capture->whole);
    return 1;
}

/* The next character, NOTHING_LEFT or UNREADABLE. */
static int next_character(struct capture *capture)
{
    if (capture->left == 0 && !refill(capture))
        return UNREADABLE;
    if (capture->left == 0)
        return NOTHING_LEFT;
    capture->left--;
    return *capture->at++;
}

/* How many bytes the character of a text has that begins there; 0 if none does. */
static size_t text_at(const uint8_t *bytes)
{
    return *bytes == '\t' || *bytes == '\r' || *bytes == '\n' ? 1 : printable((const char *)bytes);
}

/* A capture that begins with nothing but printed characters is text; a packet begins with FF. The mark EF BB BF before a text is no
 * part of it. */
static int look(struct capture *capture)
{
    size_t before, width;
    do {
        before = capture->left;
        if (!refill(capture))
            return 0;
    } while (capture->left < LOOK && capture->left > before);
    capture->text = capture->left > 0;
    for (size_t i = 0; capture->text && i < capture->left && i < LOOK; i += width) {
        width = text_at(capture->at + i);
        capture->text = width > 0;
    }
    if (capture->text && capture->left >= 3 && memcmp(capture->at, "\xEF\xBB\xBF", 3) == 0) {
        capture->at += 3;
        capture->left -= 3;
    }
    return 1;
}

static void begin(const char *name, struct capture *capture)
{
    memset(capture, 0, sizeof *capture);
    capture->name = name;
    capture->carried = -1;
    capture->file = -1;
    capture->at = capture->input;
}

int open_capture(const char *name, const struct options *options, struct capture *capture)
{
    struct stat about;
    begin(name, capture);
    capture->gap = options->gap;
    capture->byte_time = options->byte_time;
    if (strcmp(name, "-") == 0) {
        capture->name = "standard input";
        capture->file = STDIN_FILENO;
    } else {
        capture->file = open(name, O_RDONLY | O_CLOEXEC | O_NOCTTY);
    }
    if (capture->file < 0 || fstat(capture->file, &about) != 0) {
        say_failure(capture->name, strerror(errno));
        close_capture(capture);
        return 0;
    }
    capture->whole = S_ISREG(about.st_mode) ? (uint64_t)about.st_size : 0;
    if (options->raw || look(capture))
        return 1;
    close_capture(capture);
    return 0;
}

void open_memory(const char *name, const uint8_t *bytes, size_t n, struct capture *capture)
{
    begin(name, capture);
    capture->at = bytes;
    capture->left = n;
}

void close_capture(struct capture *capture)
{
    if (capture->file > STDIN_FILENO)
        close(capture->file);
    capture->file = -1;
}

/* ---- text */

static int hex_digit(int character)
{
    if (character >= '0' && character <= '9')
        return character - '0';
    if (character >= 'A' && character <= 'F')
        return character - 'A' + 10;
    return character >= 'a' && character <= 'f' ? character - 'a' + 10 : -1;
}

/* The digits of bytes: one or two, or any even number of them; before them may stand 0x. Null for anything else. */
static const char *digits_of(const char *token)
{
    const char *digits = token[0] == '0' && (token[1] == 'x' || token[1] == 'X') ? token + 2 : token;
    size_t n = strlen(digits);
    for (size_t i = 0; i < n; i++)
        if (hex_digit(digits[i]) < 0)
            return NULL;
    return n == 1 || (n > 0 && n % 2 == 0) ? digits : NULL;
}

/* A time in seconds, as decimal number; whether it is one. Differences of two, in nanoseconds, fit into 64 bits. */
static int parse_time(const char *token, int64_t *time)
{
    char *end;
    if (token[strspn(token, "0123456789.+-eE")] != 0)
        return 0;
    long double seconds = strtold(token, &end);
    if (end == token || *end != 0 || !(seconds > -4e9L && seconds < 4e9L))
        return 0;
    *time = (int64_t)(seconds * 1e9L + (seconds < 0 ? -0.5L : 0.5L));
    return 1;
}

static int is_separator(int character)
{
    return character == ' ' || character == '\t' || character == '\r' || character == ',' || character == ';';
}

/* The rest of a line. */
static int skip_line(struct capture *capture)
{
    int character;
    do
        character = next_character(capture);
    while (character >= 0 && character != '\n');
    if (character == '\n') {
        capture->line++;
        capture->field = 0;
    }
    return character;
}

/* Up to the next token: its first character, NOTHING_LEFT or UNREADABLE. */
static int skip_space(struct capture *capture)
{
    for (;;) {
        int character = next_character(capture);
        if (character == '#')
            character = skip_line(capture);
        else if (character == '\n') {
            capture->line++;
            capture->field = 0;
        }
        if (character < 0 || (character != '\n' && !is_separator(character)))
            return character;
    }
}

static int wrong_line(const struct capture *capture, const char *why)
{
    say_line(capture->name, capture->line + 1, why);
    return UNREADABLE;
}

/* The next token of the line or of one behind it: 1, NOTHING_LEFT or UNREADABLE. Of a longer one than any that is good, the start. */
static int next_token(struct capture *capture)
{
    size_t n = 0;
    int character = skip_space(capture);
    if (character < 0)
        return character;
    do {
        if (n < TOKEN)
            capture->token[n++] = (char)character;
        character = next_character(capture);
    } while (character >= 0 && character != '\n' && character != '#' && !is_separator(character));
    if (character == UNREADABLE)
        return UNREADABLE;
    capture->token[n] = 0;
    if (character >= 0) { /* what ends the token is looked at again */
        capture->at--;
        capture->left++;
    }
    return n < TOKEN ? 1 : wrong_line(capture, "a longer word than 4095 characters");
}

/* Whether the first token says what the text is: pairs of digits are bytes, any other number is a time. */
static int decides(struct capture *capture)
{
    const char *digits = digits_of(capture->token);
    int64_t time;
    int bytes = digits != NULL && strlen(digits) >= 2;
    capture->timed = !bytes && parse_time(capture->token, &time);
    capture->decided = bytes || capture->timed;
    return capture->decided;
}

/* Words in the first line are a heading; what begins like a number is none, but a time or bytes that are wrong. */
static int begin_text(struct capture *capture)
{
    if (decides(capture))
        return 1;
    int heading = capture->line == 0 && strchr("+-.0123456789", capture->token[0]) == NULL;
    int answer = heading ? skip_line(capture) : NOTHING_LEFT;
    if (answer == '\n')
        answer = next_token(capture);
    if (answer == UNREADABLE || (answer == 1 && decides(capture)))
        return answer;
    return wrong_line(capture, capture->file < 0 ? "neither a time in seconds nor bytes in hex"
                                                 : "neither a time in seconds nor bytes in hex; --raw takes the file as it is");
}

/* The time at the start of a line. */
static int take_time(struct capture *capture)
{
    int64_t time;
    if (!parse_time(capture->token, &time))
        return wrong_line(capture, "it does not begin with a time in seconds");
    if (capture->begun && time < capture->line_time)
        return wrong_line(capture, "its time lies before that of the line above");
    capture->line_time = capture->time = time;
    capture->begins = 1;
    return 1;
}

/* The next token of bytes, with digit at its first one: 1, NOTHING_LEFT or UNREADABLE. A line may have a time and no bytes. */
static int next_bytes(struct capture *capture)
{
    int answer = next_token(capture);
    if (answer == 1 && !capture->decided)
        answer = begin_text(capture);
    while (answer == 1 && capture->timed && capture->field == 0) {
        answer = take_time(capture);
        capture->field++;
        if (answer == 1)
            answer = next_token(capture);
    }
    if (answer != 1)
        return answer;
    const char *digits = digits_of(capture->token);
    if (digits == NULL)
        return wrong_line(capture, "not bytes in hex");
    capture->digit = (size_t)(digits - capture->token);
    capture->field++;
    return 1;
}

/* The next byte of the text, with its time in capture->time; NOTHING_LEFT or UNREADABLE. */
static int next_byte(struct capture *capture)
{
    if (capture->token[capture->digit] == 0) {
        int answer = next_bytes(capture);
        if (answer != 1)
            return answer;
    }
    if (!capture->begins)
        capture->time += capture->byte_time;
    capture->begins = 0;
    int high = hex_digit(capture->token[capture->digit++]);
    if (capture->token[capture->digit] == 0)
        return high; /* one digit by itself */
    return high * 16 + hex_digit(capture->token[capture->digit++]);
}

/* ---- blocks */

static void take_byte(struct capture *capture, struct block *block, int byte)
{
    block->bytes[block->n] = (uint8_t)byte;
    block->times[block->n++] = capture->time;
    capture->last = capture->time;
    capture->begun = 1;
}

/* Up to the next gap: a byte behind it is carried into the next block. The bytes before a wrong line are read. */
static int next_text(struct capture *capture, struct block *block)
{
    if (capture->broken)
        return 0;
    if (capture->carried >= 0)
        take_byte(capture, block, capture->carried);
    capture->carried = -1;
    while (block->n < BLOCK) {
        int byte = next_byte(capture);
        if (byte == UNREADABLE) {
            capture->broken = 1;
            return block->n > 0;
        }
        if (byte == NOTHING_LEFT) {
            block->gap = block->end = 1;
            return 1;
        }
        if (capture->timed && capture->begun && capture->time - capture->last - capture->byte_time > capture->gap) {
            capture->carried = byte;
            block->gap = 1;
            return 1;
        }
        take_byte(capture, block, byte);
    }
    return 1;
}

int next_block(struct capture *capture, struct block *block)
{
    block->n = 0;
    block->gap = block->end = 0;
    if (capture->text)
        return next_text(capture, block);
    if (capture->left == 0 && !refill(capture))
        return 0;
    block->n = capture->left < BLOCK ? capture->left : BLOCK;
    memcpy(block->bytes, capture->at, block->n);
    capture->at += block->n;
    capture->left -= block->n;
    block->gap = block->end = block->n == 0;
    return 1;
}
