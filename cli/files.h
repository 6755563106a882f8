/* Files for the tool dxl: mapped into memory, written whole or not at all, and a line that says how long work takes. */
#ifndef FILES_H
#define FILES_H

#include <stddef.h>
#include <stdint.h>
#include <sys/types.h>

/* A file's bytes in memory. `bytes` is never null, also where there are none. */
struct mapped {
    const uint8_t *bytes;
    size_t count;
    dev_t device; /* these two tell whether two names are one file */
    ino_t inode;
};

/* A file that is being written: what was mapped gets its name only once it is complete. */
struct output {
    uint8_t *bytes;
    size_t count;
    size_t length; /* of the file when it is finished: as many bytes as are mapped, or fewer */
    int file;
    const char *name;
    char *temporary; /* null where the file has no name of its own */
};

/* Each of these returns whether it was done; where not, it has said on standard error why. Where a file is read, - is standard input:
 * all of it in memory, and likewise a pipe. */
int map_file(const char *name, struct mapped *mapped);
int measure_file(const char *name, struct mapped *mapped); /* the same without its bytes */
int may_be_written(const char *name);                      /* not there, or a regular file */
int begin_output(const char *name, size_t count, struct output *output);    /* gets `name` by finish_output */
int begin_scratch(const char *beside, size_t count, struct output *output); /* in the same folder, and without a name */
int append_file(const char *name, uint8_t *out, size_t count); /* all its bytes, which have to be as many as before */
int finish_output(struct output *output);
int give_up(struct output *output, const char *why); /* nothing of it stays; says why, and returns 0 */

/* The name that is said: `standard input` for -. */
const char *file_name(const char *name);

/* Whether the name is that of a file that is mapped. */
int same_file(const char *name, const struct mapped *mapped);

/* First of all: no file that is opened may take the place of a standard stream. */
void hold_streams(void);

/* Says on standard error what takes long, and for how many seconds: from the second one on where that is a terminal, and else every
 * ten seconds. */
void begin_work(const char *what);
void work_reached(uint64_t done, uint64_t whole); /* in bytes; the whole is 0 where it is not known */
void work_counted(int done, int whole, const char *what); /* in other things than bytes */
void hide_work(void);                                     /* until the next second: a line is to be printed */
void end_work(void);

/* From here on nothing unfinished stays where the program is ended, and a reader that has gone is told by the call that writes. */
void listen_to_ends(void);

/* What is to be undone where the program is ended; it may call only what a signal handler may. */
void undo_at_end(void (*undo)(void));

#endif
