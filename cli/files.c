#include "files.h"

#include <errno.h>
#include <fcntl.h>
#include <poll.h>
#include <signal.h>
#include <stdio.h>
#include <stdlib.h>
#include <string.h>
#include <sys/mman.h>
#include <sys/stat.h>
#include <sys/time.h>
#include <unistd.h>

#include "say.h"

static uint8_t none[1];

/* Where a standard stream is closed, the next file that is opened would be taken for it, and what is said would go into that file. */
void hold_streams(void)
{
    int file;
    do
        file = open("/dev/null", O_RDONLY); /* for reading, so that printing to a closed stream still fails */
    while (file >= 0 && file <= STDERR_FILENO);
    if (file > STDERR_FILENO)
        close(file);
}

/* ---- signals: the line while work takes long, and what is left behind where the program is ended */

static const char *volatile work;
static volatile sig_atomic_t seconds, shown, terminal;
static volatile sig_atomic_t reached, whole_work; /* both are 0 where nothing is counted */
static const char *volatile counted;             /* of what they are */
static const char *volatile unfinished; /* the temporary file */
static void (*volatile undoing)(void);

/* Only what a signal handler may call. */
static void put(const char *text)
{
    size_t n = 0;
    while (text[n] != 0)
        n++;
    if (write(STDERR_FILENO, text, n) < 0)
        return; /* there is nobody to tell */
}

static void put_number(int n)
{
    char digits[12];
    char *at = digits + sizeof digits - 1;
    *at = 0;
    do
        *--at = (char)('0' + n % 10);
    while ((n /= 10) > 0);
    put(at);
}

static void put_work(void)
{
    put(terminal ? "\rdxl: " : "dxl: ");
    put(work);
    put(", ");
    if (reached > 0) {
        put_number(reached);
        put(whole_work > 0 ? " of " : "");
        if (whole_work > 0)
            put_number(whole_work);
        put(counted);
    }
    put_number(seconds);
    put(terminal ? " s" : " s\n");
    shown = 1;
}

static void tick(int number)
{
    (void)number;
    int saved = errno;
    seconds = seconds + 1;
    if (work != NULL && (terminal ? seconds > 1 : seconds % 10 == 0))
        put_work();
    errno = saved;
}

/* A file that is cut while it is mapped ends the program, and so does whoever asks for it; nothing unfinished stays. */
static void end_program(int number)
{
    if (unfinished != NULL)
        unlink(unfinished);
    if (undoing != NULL)
        undoing();
    if (number == SIGBUS) {
        put(shown && terminal ? "\ndxl: " : "dxl: ");
        put("a file was made shorter, or could not be read, while it was mapped\n");
        _exit(FAILED);
    }
    signal(number, SIG_DFL);
    raise(number);
}

static void listen_to(int number, void (*handler)(int))
{
    struct sigaction action;
    memset(&action, 0, sizeof action);
    action.sa_handler = handler;
    action.sa_flags = SA_RESTART;
    sigemptyset(&action.sa_mask);
    sigaction(number, &action, NULL);
}

/* What the caller ignores stays ignored, as with nohup. A file that may not become so long is told by the call that asks for room,
 * and a reader that has gone by the call that writes. */
void listen_to_ends(void)
{
    static const int ends[] = {SIGBUS, SIGINT, SIGTERM, SIGHUP, SIGQUIT};
    for (size_t i = 0; i < sizeof ends / sizeof *ends; i++) {
        struct sigaction before;
        if (sigaction(ends[i], NULL, &before) != 0 || before.sa_handler != SIG_IGN)
            listen_to(ends[i], end_program);
    }
    listen_to(SIGXFSZ, SIG_IGN);
    listen_to(SIGPIPE, SIG_IGN);
}

void undo_at_end(void (*undo)(void))
{
    undoing = undo;
}

/* No signal comes until it is given back what was before. */
static sigset_t hold_signals(void)
{
    sigset_t all, before;
    sigfillset(&all);
    sigdelset(&all, SIGBUS);
    sigprocmask(SIG_BLOCK, &all, &before);
    return before;
}

static void let_signals(sigset_t before)
{
    sigprocmask(SIG_SETMASK, &before, NULL);
}

void begin_work(const char *what)
{
    struct itimerval every_second = {{1, 0}, {1, 0}};
    seconds = shown = 0;
    reached = whole_work = 0;
    counted = " MB, ";
    terminal = isatty(STDERR_FILENO);
    work = what;
    listen_to(SIGALRM, tick);
    setitimer(ITIMER_REAL, &every_second, NULL);
}

void work_reached(uint64_t done, uint64_t whole)
{
    reached = (sig_atomic_t)(done >> 20 & INT32_MAX);
    whole_work = (sig_atomic_t)(whole >> 20 & INT32_MAX);
}

void work_counted(int done, int whole, const char *what)
{
    counted = what;
    whole_work = whole;
    reached = done;
}

void hide_work(void)
{
    if (shown && terminal)
        put("\r\033[K");
    shown = 0;
}

void end_work(void)
{
    struct itimerval never = {{0, 0}, {0, 0}};
    setitimer(ITIMER_REAL, &never, NULL);
    work = NULL;
    if (shown && terminal)
        fputc('\n', stderr);
    shown = 0;
}

/* ---- reading */

/* An opened regular file, or -1. */
static int open_regular(const char *name, struct stat *about)
{
    int file = open(name, O_RDONLY | O_CLOEXEC | O_NONBLOCK | O_NOCTTY); /* a terminal may wait for a carrier */
    if (file >= 0 && fstat(file, about) == 0) {
        if (S_ISREG(about->st_mode))
            return file;
        close(file);
        say_failure(name, "not a regular file");
        return -1;
    }
    say_failure(name, strerror(errno));
    if (file >= 0)
        close(file);
    return -1;
}

static int is_standard_input(const char *name)
{
    return strcmp(name, "-") == 0;
}

const char *file_name(const char *name)
{
    return is_standard_input(name) ? "standard input" : name;
}

/* Standard input and pipes can be read once: all their bytes are kept, since a file is measured before it is read. */
struct stream {
    const char *name;
    struct mapped mapped;
    struct stream *next;
};

static struct stream *streams;

static int is_stream(const char *name)
{
    struct stat about;
    return is_standard_input(name) || (stat(name, &about) == 0 && S_ISFIFO(about.st_mode));
}

enum { WAITS = 50 }; /* of 10 ms each */

/* A pipe has given nothing: whether to try again. Somebody who has come and gone has written nothing. */
static int may_come(int file, int *waits)
{
    struct pollfd pipe = {.fd = file, .events = POLLIN};
    if (*waits == 0)
        return 0;
    --*waits;
    return poll(&pipe, 1, 10) <= 0 || (pipe.revents & POLLIN) != 0;
}

/* What can be read now. A pipe that is not waited for says that somebody has opened it: then it is. */
static ssize_t read_some(int file, uint8_t *bytes, size_t room)
{
    ssize_t got = read(file, bytes, room);
    if (got < 0 && errno == EAGAIN && file != STDIN_FILENO && fcntl(file, F_SETFL, 0) == 0)
        got = read(file, bytes, room);
    return got;
}

static int read_all(int file, const char *name, int waits, struct mapped *mapped)
{
    size_t room = 65536, n = 0;
    ssize_t got = 1;
    int nobody = waits > 0;
    struct stat about;
    uint8_t *bytes = malloc(room);
    while (bytes != NULL && (got > 0 || (n == 0 && may_come(file, &waits)))) {
        got = read_some(file, bytes + n, room - n);
        if (got < 0)
            return say_failure(name, strerror(errno));
        n += (size_t)got;
        if (n == room)
            bytes = realloc(bytes, room *= 2);
    }
    if (bytes == NULL)
        return say_failure(name, "no memory");
    if (nobody && n == 0 && waits == 0)
        return say_failure(name, "not a regular file");
    if (fstat(file, &about) != 0)
        return say_failure(name, strerror(errno));
    *mapped = (struct mapped){bytes, n, about.st_dev, about.st_ino};
    return 1;
}

/* A stream of which nothing is read yet. A pipe that nobody opens within half a second is not waited for. */
static int begin_stream(struct stream *stream)
{
    if (is_standard_input(stream->name))
        return read_all(STDIN_FILENO, file_name(stream->name), 0, &stream->mapped);
    int file = open(stream->name, O_RDONLY | O_CLOEXEC | O_NONBLOCK);
    if (file < 0)
        return say_failure(stream->name, strerror(errno));
    int good = read_all(file, stream->name, WAITS, &stream->mapped);
    close(file);
    return good;
}

/* Its device and inode are those of a file that was put in the place of standard input, which could be written over. */
static int map_stream(const char *name, struct mapped *mapped)
{
    struct stream *stream = streams;
    while (stream != NULL && strcmp(stream->name, name) != 0)
        stream = stream->next;
    if (stream == NULL) {
        stream = calloc(1, sizeof *stream);
        if (stream == NULL)
            return say_failure(file_name(name), "no memory");
        stream->name = name;
        if (!begin_stream(stream)) {
            free(stream);
            return 0;
        }
        stream->next = streams;
        streams = stream;
    }
    *mapped = stream->mapped;
    return 1;
}

/* The opened file, or -1; its bytes are not mapped yet. */
static int open_measured(const char *name, struct mapped *mapped)
{
    struct stat about;
    int file = open_regular(name, &about);
    if (file < 0)
        return -1;
    mapped->bytes = none;
    mapped->count = (size_t)about.st_size;
    mapped->device = about.st_dev;
    mapped->inode = about.st_ino;
    return file;
}

int measure_file(const char *name, struct mapped *mapped)
{
    if (is_stream(name))
        return map_stream(name, mapped);
    int file = open_measured(name, mapped);
    if (file < 0)
        return 0;
    close(file);
    return 1;
}

int map_file(const char *name, struct mapped *mapped)
{
    listen_to_ends();
    if (is_stream(name))
        return map_stream(name, mapped);
    int file = open_measured(name, mapped);
    if (file < 0)
        return 0;
    if (mapped->count > 0) {
        void *bytes = mmap(NULL, mapped->count, PROT_READ, MAP_PRIVATE, file, 0);
        if (bytes == MAP_FAILED) {
            say_failure(name, strerror(errno));
            close(file);
            return 0;
        }
        mapped->bytes = bytes;
    }
    close(file);
    return 1;
}

int same_file(const char *name, const struct mapped *mapped)
{
    struct stat about;
    return stat(name, &about) == 0 && about.st_dev == mapped->device && about.st_ino == mapped->inode;
}

int append_file(const char *name, uint8_t *out, size_t count)
{
    struct stat about;
    struct mapped stream;
    if (is_stream(name)) {
        if (!map_stream(name, &stream))
            return 0;
        memcpy(out, stream.bytes, count);
        return 1;
    }
    int file = open_regular(name, &about);
    if (file < 0)
        return 0;
    size_t n = 0;
    ssize_t got = 1;
    while (n < count && got > 0) {
        got = read(file, out + n, count - n);
        if (got > 0)
            n += (size_t)got;
        else if (got < 0 && errno == EINTR)
            got = 1;
    }
    int why = errno;
    close(file);
    if (n == count)
        return 1;
    return say_failure(name, got < 0 ? strerror(why) : "it has become shorter");
}

/* ---- writing */

/* A name for mkstemp in the folder of a file; null where there is no memory. The file's own name may leave no room for an ending. */
static char *temporary_beside(const char *name)
{
    static const char template[] = "dxl.XXXXXX";
    const char *slash = strrchr(name, '/');
    size_t folder = slash == NULL ? 0 : (size_t)(slash + 1 - name);
    char *temporary = malloc(folder + sizeof template);
    if (temporary != NULL) {
        memcpy(temporary, name, folder);
        memcpy(temporary + folder, template, sizeof template);
    }
    return temporary;
}

int give_up(struct output *output, const char *why)
{
    if (output->temporary != NULL)
        unlink(output->temporary);
    unfinished = NULL;
    return say_failure(output->name, why);
}

int may_be_written(const char *name)
{
    struct stat about;
    if (strcmp(name, "-") == 0)
        return say_failure(name, "a file is written, and not standard output; one of this name is given with ./ before it");
    if (stat(name, &about) == 0 && !S_ISREG(about.st_mode))
        return say_failure(name, "not a regular file");
    return 1;
}

/* The temporary file; a signal finds it either not there or known. */
static int make_temporary(struct output *output)
{
    sigset_t before = hold_signals();
    int file = mkstemp(output->temporary);
    if (file >= 0)
        unfinished = output->temporary;
    int why = errno;
    let_signals(before);
    errno = why;
    return file;
}

/* 0, or why there is none; the tick must not end a call that begins anew then. */
static int take_room(int file, size_t count)
{
    sigset_t before, ticks;
    sigemptyset(&ticks);
    sigaddset(&ticks, SIGALRM);
    sigprocmask(SIG_BLOCK, &ticks, &before);
    int why;
    do
        why = posix_fallocate(file, 0, (off_t)count);
    while (why == EINTR);
    let_signals(before);
    return why;
}

/* Room is taken on the disk first: a mapped file that has none would end the program where it is written. */
int begin_output(const char *name, size_t count, struct output *output)
{
    output->name = name;
    output->count = output->length = count;
    output->temporary = temporary_beside(name);
    if (output->temporary == NULL)
        return say_failure(name, "no memory");
    listen_to_ends();
    output->file = make_temporary(output);
    if (output->file < 0) {
        int why = errno;
        free(output->temporary);
        output->temporary = NULL;
        return say_failure(name, strerror(why));
    }
    output->bytes = none;
    if (count == 0) /* neither room nor a map can be had of no bytes */
        return 1;
    int why = take_room(output->file, count);
    if (why != 0)
        return give_up(output, strerror(why));
    output->bytes = mmap(NULL, count, PROT_READ | PROT_WRITE, MAP_SHARED, output->file, 0);
    if (output->bytes == MAP_FAILED)
        return give_up(output, strerror(errno));
    return 1;
}

int begin_scratch(const char *beside, size_t count, struct output *output)
{
    if (!begin_output(beside, count, output))
        return 0;
    unlink(output->temporary);
    unfinished = NULL;
    free(output->temporary);
    output->temporary = NULL;
    return 1;
}

/* The mode of the file that is replaced, or the one that a new file gets; mkstemp makes one that only its owner reads. */
static mode_t mode_for(const char *name)
{
    struct stat about;
    if (stat(name, &about) == 0)
        return about.st_mode & 0777;
    mode_t mask = umask(0);
    umask(mask);
    return 0666 & ~mask;
}

/* So that the name outlives a power cut too. A file system that cannot do that for a folder keeps the file all the same. */
static void sync_folder(const char *name)
{
    const char *slash = strrchr(name, '/');
    char *folder = strdup(slash == NULL ? "." : name);
    if (folder == NULL)
        return;
    if (slash != NULL)
        folder[slash == name ? 1 : slash - name] = 0;
    int file = open(folder, O_RDONLY | O_CLOEXEC);
    free(folder);
    if (file < 0)
        return;
    int synced = fsync(file);
    (void)synced;
    close(file);
}

int finish_output(struct output *output)
{
    int kept = fchmod(output->file, mode_for(output->name)); /* some file systems have no modes: the file is whole all the same */
    (void)kept;
    if ((output->count > 0 && munmap(output->bytes, output->count) != 0) || ftruncate(output->file, (off_t)output->length) != 0
        || fsync(output->file) != 0 || close(output->file) != 0 || rename(output->temporary, output->name) != 0)
        return give_up(output, strerror(errno));
    unfinished = NULL;
    sync_folder(output->name);
    free(output->temporary);
    return 1;
}
