/* Linux: its own call for the mode of a line takes every speed, not only those that have a name. */
#include "serial.h"

#include <asm/termbits.h>
#include <errno.h>
#include <fcntl.h>
#include <poll.h>
#include <string.h>
#include <sys/file.h>
#include <sys/ioctl.h>
#include <time.h>
#include <unistd.h>

#include "files.h"
#include "say.h"

enum { MILLION = 1000000, PATIENCE = MILLION }; /* a line that takes no byte for a second takes none */

/* ---- time */

int64_t now_micros(void)
{
    struct timespec time;
    clock_gettime(CLOCK_MONOTONIC, &time);
    return (int64_t)time.tv_sec * MILLION + time.tv_nsec / 1000;
}

/* A byte has ten bits. */
int64_t bytes_micros(const struct serial *serial, size_t n)
{
    return (int64_t)n * 10 * MILLION / serial->baud + 1;
}

void wait_micros(int64_t micros)
{
    struct timespec left = {(time_t)(micros / MILLION), (long)(micros % MILLION) * 1000};
    while (nanosleep(&left, &left) != 0 && errno == EINTR)
        ;
}

/* ---- the mode */

static struct termios2 before;
static volatile int opened = -1; /* the file whose mode was changed */

/* Called by a signal too. */
static void restore(void)
{
    if (opened >= 0)
        ioctl(opened, TCSETS2, &before);
    opened = -1;
}

/* A driver may take the nearest speed that it has. */
static int has_speed(int file, uint32_t baud)
{
    struct termios2 mode;
    if (ioctl(file, TCGETS2, &mode) != 0)
        return 0;
    uint32_t wrong = mode.c_ospeed > baud ? mode.c_ospeed - baud : baud - mode.c_ospeed;
    return wrong <= baud / 50;
}

/* Bytes as they are: a terminal would echo, translate line ends and act on control characters. */
static int set_mode(int file, uint32_t baud)
{
    struct termios2 mode;
    if (ioctl(file, TCGETS2, &before) != 0)
        return 0;
    opened = file;
    undo_at_end(restore);
    mode = before;
    mode.c_iflag = mode.c_oflag = mode.c_lflag = 0;
    mode.c_cflag &= ~(tcflag_t)(CBAUD | CBAUD << IBSHIFT | CSIZE | PARENB | CSTOPB | CRTSCTS);
    mode.c_cflag |= BOTHER | BOTHER << IBSHIFT | CS8 | CREAD | CLOCAL;
    mode.c_ispeed = mode.c_ospeed = baud;
    mode.c_cc[VMIN] = 1;
    mode.c_cc[VTIME] = 0;
    return ioctl(file, TCSETS2, &mode) == 0;
}

/* ---- the line */

/* What keeps it from being a line for us, or null. The shell's own terminal would become useless. */
static const char *unfit(int file)
{
    pid_t session;
    if (!isatty(file))
        return "neither a serial line nor a pseudo-terminal";
    if (ioctl(file, TIOCGSID, &session) == 0)
        return "this is the terminal that the tool was called from";
    if (flock(file, LOCK_EX | LOCK_NB) != 0)
        return "another program has taken the line";
    return NULL;
}

int open_serial(const char *name, uint32_t baud, struct serial *serial)
{
    *serial = (struct serial){name, open(name, O_RDWR | O_NOCTTY | O_NONBLOCK | O_CLOEXEC), baud};
    if (serial->file < 0)
        return say_failure(name, strerror(errno));
    listen_to_ends();
    const char *why = unfit(serial->file);
    if (why == NULL && !set_mode(serial->file, baud))
        why = strerror(errno);
    if (why == NULL && !has_speed(serial->file, baud))
        why = "the line does not have the speed that --baud says";
    if (why != NULL) {
        say_failure(name, why);
        close_serial(serial);
        return 0;
    }
    ioctl(serial->file, TCFLSH, TCIFLUSH);
    return 1;
}

static void drain(const struct serial *serial)
{
    int left = 0;
    int64_t until = now_micros() + PATIENCE;
    while (ioctl(serial->file, TIOCOUTQ, &left) == 0 && left > 0 && now_micros() < until)
        wait_micros(1000);
}

void close_serial(struct serial *serial)
{
    if (opened >= 0)
        drain(serial);
    restore();
    close(serial->file);
    serial->file = -1;
}

/* ---- bytes */

/* Whether the line is ready, or it has become late; else it was closed, and that is said. */
static int wait_for(const struct serial *serial, short what, int64_t until)
{
    struct pollfd file = {serial->file, what, 0};
    int64_t left = until - now_micros();
    if (poll(&file, 1, left <= 0 ? 0 : (int)((left + 999) / 1000)) < 0 && errno != EINTR)
        return say_failure(serial->name, strerror(errno));
    if ((file.revents & (POLLHUP | POLLERR | POLLNVAL)) && !(file.revents & what))
        return say_failure(serial->name, "the line was closed");
    return 1;
}

static int would_wait(void)
{
    return errno == EAGAIN || errno == EINTR;
}

int write_serial(const struct serial *serial, const uint8_t *bytes, size_t n)
{
    int64_t until = now_micros() + PATIENCE;
    while (n > 0) {
        ssize_t put = write(serial->file, bytes, n);
        if (put < 0 && !would_wait())
            return say_failure(serial->name, errno == EIO ? "the line was closed" : strerror(errno));
        if (put > 0) {
            bytes += put;
            n -= (size_t)put;
            until = now_micros() + PATIENCE;
        } else if (now_micros() >= until) {
            return say_failure(serial->name, "the line takes no bytes");
        } else if (!wait_for(serial, POLLOUT, until)) {
            return 0;
        }
    }
    return 1;
}

int64_t read_serial(const struct serial *serial, uint8_t *bytes, size_t room, int64_t until)
{
    for (;;) {
        ssize_t got = read(serial->file, bytes, room);
        if (got > 0)
            return got;
        if (got == 0 || !would_wait()) {
            say_failure(serial->name, got == 0 || errno == EIO ? "the line was closed" : strerror(errno));
            return -1;
        }
        if (now_micros() >= until)
            return 0;
        if (!wait_for(serial, POLLIN, until))
            return -1;
    }
}
