/*
 * The header by itself: included first and twice, as C99 and as C++11, and with the archive beside it. Prints the version.
 */
#include "mednukals.h"
#include "mednukals.h"

#include <stdio.h>

/* Through the inline functions, which are compiled with the caller: a Ping, with a byte before it that no packet begins with. */
static int answers(void)
{
    static const uint8_t bytes[] = {0x00, 0xFF, 0xFF, 0xFD, 0x00, 0x01, 0x03, 0x00, DXL_INST_PING, 0x19, 0x4E};
    static struct dxl_board board;
    dxl_board_start(&board);
    struct dxl_board_step step = dxl_board_feed(&board, bytes, sizeof bytes);
    return step.kind == DXL_PACKET && step.taken == sizeof bytes && step.instruction == DXL_INST_PING && step.reply.speaks
           && dxl_board_gap(&board).kind == DXL_NO_EVENT;
}

int main(void)
{
    static const uint8_t ping[] = {0xFF, 0xFF, 0xFD, 0x00, 0x01, 0x03, 0x00, DXL_INST_PING};
    uint8_t table[DXL_TABLE_BYTES];
    if (dxl_crc16(0, ping, sizeof ping) != 0x4E19 || dxl_fresh(table, sizeof table) != 0 || !answers())
        return 1;
    if (dxl_version() != DXL_VERSION_NUMBER)
        return 1;
    if (table[DXL_REG_ID] != DXL_FRESH_ID || DXL_REG_PRESENT_POSITION + DXL_SIZE_PRESENT_POSITION != DXL_TABLE_BYTES)
        return 1;
    printf("%s %d.%d.%d\n", DXL_VERSION, DXL_VERSION_MAJOR, DXL_VERSION_MINOR, DXL_VERSION_PATCH);
    return 0;
}
