/* Linux and glibc: ppoll is in the newest POSIX only. */
#define _GNU_SOURCE
#include "pty_line.h"

#include <errno.h>
#include <fcntl.h>
#include <poll.h>
#include <stdio.h>
#include <stdlib.h>
#include <termios.h>
#include <time.h>
#include <unistd.h>

enum { MILLION = 1000000 };

int64_t line_clock(void)
{
    struct timespec t;
    clock_gettime(CLOCK_MONOTONIC, &t);
    return (int64_t)t.tv_sec * MILLION + t.tv_nsec / 1000;
}

/* Without this a terminal would echo, translate line ends and act on control characters. */
static int set_raw(int terminal)
{
    struct termios mode;
    if (tcgetattr(terminal, &mode) != 0)
        return -1;
    mode.c_iflag &= ~(tcflag_t)(IGNBRK | BRKINT | PARMRK | INPCK | ISTRIP | INLCR | IGNCR | ICRNL | IXON | IXOFF);
    mode.c_oflag &= ~(tcflag_t)OPOST;
    mode.c_lflag &= ~(tcflag_t)(ECHO | ECHONL | ICANON | ISIG | IEXTEN);
    mode.c_cflag &= ~(tcflag_t)(CSIZE | PARENB);
    mode.c_cflag |= CS8;
    mode.c_cc[VMIN] = 1;
    mode.c_cc[VTIME] = 0;
    return tcsetattr(terminal, TCSANOW, &mode);
}

/* A read or write that would have to wait fails instead: all waiting is done in ppoll. */
static int set_nonblocking(int fd)
{
    int flags = fcntl(fd, F_GETFL);
    return flags < 0 ? -1 : fcntl(fd, F_SETFL, flags | O_NONBLOCK);
}

const char *line_open(struct line *line)
{
    line->fd = posix_openpt(O_RDWR | O_NOCTTY);
    if (line->fd < 0)
        return "opening a pseudo-terminal";
    if (grantpt(line->fd) != 0 || unlockpt(line->fd) != 0)
        return "unlocking the pseudo-terminal";
    const char *path = ptsname(line->fd);
    if (path == NULL || (size_t)snprintf(line->path, sizeof line->path, "%s", path) >= sizeof line->path)
        return "finding the pseudo-terminal's name";
    line->other = open(line->path, O_RDWR | O_NOCTTY);
    if (line->other < 0)
        return "opening the pseudo-terminal's other end";
    if (set_raw(line->other) != 0 || set_nonblocking(line->fd) != 0)
        return "setting the pseudo-terminal's mode";
    printf("line: %s\n", line->path);
    return fflush(stdout) == 0 ? NULL : "printing the line's name";
}

/* What is left until then, or NULL for no end. */
static const struct timespec *time_left(int64_t until, struct timespec *left)
{
    if (until == LINE_NEVER)
        return NULL;
    int64_t micros = until - line_clock();
    if (micros < 0)
        micros = 0;
    left->tv_sec = (time_t)(micros / MILLION);
    left->tv_nsec = (long)(micros % MILLION) * 1000;
    return left;
}

static enum line_news wait_for(const struct line *line, short what, int64_t until)
{
    struct pollfd fd = {line->fd, what, 0};
    struct timespec left;
    int ready = ppoll(&fd, 1, time_left(until, &left), NULL);
    if (ready > 0)
        return LINE_BYTES;
    if (ready == 0)
        return LINE_TIME;
    return errno == EINTR ? LINE_SIGNAL : LINE_BROKEN;
}

enum line_news line_wait(const struct line *line, int64_t until)
{
    return wait_for(line, POLLIN, until);
}

int line_read(const struct line *line, uint8_t *bytes, size_t n)
{
    ssize_t got = read(line->fd, bytes, n);
    if (got < 0 && (errno == EAGAIN || errno == EINTR))
        return 0;
    return (int)got;
}

/* One write, of as much as the line takes now. */
static int send_some(const struct line *line, const uint8_t *bytes, size_t n)
{
    ssize_t put = write(line->fd, bytes, n);
    if (put < 0 && (errno == EAGAIN || errno == EINTR))
        return 0;
    return (int)put;
}

/* Waits until the line takes bytes again. */
static int wait_for_room(const struct line *line, int64_t until)
{
    enum line_news news = wait_for(line, POLLOUT, until);
    if (news == LINE_TIME)
        errno = EAGAIN;
    return news == LINE_TIME || news == LINE_BROKEN ? -1 : 0;
}

int line_send(const struct line *line, const uint8_t *bytes, size_t n)
{
    int64_t until = line_clock() + LINE_PATIENCE;
    while (n > 0) {
        int put = send_some(line, bytes, n);
        if (put < 0)
            return -1;
        bytes += put;
        n -= (size_t)put;
        if (put > 0)
            until = line_clock() + LINE_PATIENCE;
        else if (wait_for_room(line, until) != 0)
            return -1;
    }
    return 0;
}
