/*
 * A packet sent in parts: front, parameters and checksum one after the other, each from where it lies, as scatter-gather hardware
 * wants it. The checksum goes on from part to part, so that nothing has to be joined to compute it.
 */
#ifndef PARTS_H
#define PARTS_H

#include <stddef.h>
#include <stdint.h>

/* Sends n bytes on the line; the firmware has such a function. */
typedef void send_bytes(void *line, const uint8_t *bytes, size_t n);

/*
 * Sends the packet that dxl_encode writes for this ID, this instruction and these n parameters. If its body needs no stuffing,
 * the parameters go out from the caller's memory; otherwise dxl_encode writes the packet to a buffer on the stack.
 *
 * Returns the count of bytes sent; or, with nothing sent,
 *   -11  the ID is 253 or 255
 *   -12  the packet's length would be above 1,024
 */
int64_t send_in_parts(uint8_t id, uint8_t instruction, const uint8_t *params, size_t n, send_bytes *send, void *line);

#endif
