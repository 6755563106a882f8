/* A serial line or pseudo-terminal that carries bytes as they are, and no call that waits for ever. One is open at a time. */
#ifndef SERIAL_H
#define SERIAL_H

#include <stddef.h>
#include <stdint.h>

struct serial {
    const char *name;
    int file;
    uint32_t baud;
};

/* Whether it was opened: eight bits, no parity, one stop bit, and what had come before is thrown away. Each of these has said why
 * where it was not done. */
int open_serial(const char *name, uint32_t baud, struct serial *serial);
int write_serial(const struct serial *serial, const uint8_t *bytes, size_t n);

/* How many bytes have come, 0 where it has become that late first, or -1 with a message. */
int64_t read_serial(const struct serial *serial, uint8_t *bytes, size_t room, int64_t until);

/* Waits until all that was written has left; the mode of the line is as it was before, also where a signal ends the program. */
void close_serial(struct serial *serial);

/* In microseconds, from any beginning; how many of them so many bytes take on the line; and a wait. */
int64_t now_micros(void);
int64_t bytes_micros(const struct serial *serial, size_t n);
void wait_micros(int64_t micros);

#endif
