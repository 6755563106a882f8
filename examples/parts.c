#include "parts.h"
#include "mednukals.h"

enum { FRONT = 8, CHECKSUM = 2 }; /* the front here has the instruction too */

/* Whether the body, instruction and parameters, contains FF FF FD. */
static int needs_stuffing(uint8_t instruction, const uint8_t *params, size_t n)
{
    uint8_t before = 0, last = instruction;
    for (size_t i = 0; i < n; i++) {
        if (before == 0xFF && last == 0xFF && params[i] == 0xFD)
            return 1;
        before = last;
        last = params[i];
    }
    return 0;
}

int64_t send_in_parts(uint8_t id, uint8_t instruction, const uint8_t *params, size_t n, send_bytes *send, void *line)
{
    if (needs_stuffing(instruction, params, n)) {
        uint8_t packet[DXL_MAX_PACKET];
        int64_t count = dxl_encode(id, instruction, params, n, packet, sizeof packet, 0);
        if (count > 0)
            send(line, packet, (size_t)count);
        return count;
    }
    if (id == 253 || id == 255)
        return -DXL_BAD_ID;
    if (n > DXL_MAX_PACKET - FRONT - CHECKSUM)
        return -DXL_TOO_LONG;

    size_t length = 1 + n + CHECKSUM;
    const uint8_t front[FRONT] = {0xFF, 0xFF, 0xFD, 0x00, id, length & 0xFF, (uint8_t)(length >> 8), instruction};
    uint16_t crc = dxl_crc16(0, front, FRONT);
    crc = dxl_crc16(crc, params, n);
    const uint8_t checksum[CHECKSUM] = {crc & 0xFF, crc >> 8};

    send(line, front, FRONT);
    send(line, params, n);
    send(line, checksum, CHECKSUM);
    return (int64_t)(FRONT + n + CHECKSUM);
}
