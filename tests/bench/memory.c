/* What a device keeps and passes around, by the header's own types. */
#include <stdio.h>

#include "mednukals.h"

static void tell(const char *what, size_t bytes)
{
    printf("  %-58s %6zu\n", what, bytes);
}

int main(void)
{
    size_t single =
        sizeof(struct dxl_reader) + DXL_MAX_PACKET + DXL_MAX_BODY + DXL_TABLE_BYTES + sizeof(struct dxl_registered);
    printf("kept as long as the device, in bytes\n");
    tell("board, struct dxl_board", sizeof(struct dxl_board));
    tell("reply that waits for its slot, struct dxl_reply", sizeof(struct dxl_reply));
    tell("together", sizeof(struct dxl_board) + sizeof(struct dxl_reply));
    printf("in single calls in the place of the board, in bytes\n");
    tell("reader, struct dxl_reader", sizeof(struct dxl_reader));
    tell("packet buffer", DXL_MAX_PACKET);
    tell("body buffer, for the longest body", DXL_MAX_BODY);
    tell("control table", DXL_TABLE_BYTES);
    tell("registered write, struct dxl_registered", sizeof(struct dxl_registered));
    tell("together", single);
    printf("lent for one call, in bytes\n");
    tell("buffer for a status, the shortest", DXL_MIN_REPLY);
    printf("of an old board in the place of reader and packet buffer, in bytes\n");
    tell("held bytes and their count", DXL_V1_MAX_HELD + sizeof(size_t));
    tell("packet buffer", DXL_V1_MAX_PACKET);
    printf("answers, by value, in bytes\n");
    tell("of a board's call, struct dxl_board_step", sizeof(struct dxl_board_step));
    tell("of the reader, struct dxl_step", sizeof(struct dxl_step));
    tell("of the plain reader, struct dxl_event", sizeof(struct dxl_event));
    tell("of the device, struct dxl_answer", sizeof(struct dxl_answer));
    tell("of a first call, struct dxl_carried", sizeof(struct dxl_carried));
    return 0;
}
