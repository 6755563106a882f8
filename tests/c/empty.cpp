// Empty containers as C++ callers lend them: docs/INTEGRATING.md shows this function.
#include <cstdint>
#include <cstdio>
#include <vector>

#include "mednukals.h"

// What to lend of a vector: never null, also where the vector is empty.
static const std::uint8_t *lent(const std::vector<std::uint8_t> &bytes)
{
    static const std::uint8_t none = 0;
    return bytes.empty() ? &none : bytes.data();
}

int main()
{
    const std::vector<std::uint8_t> empty, two = {0x12, 0x34};
    std::vector<std::uint8_t> out(DXL_MAX_PACKET);
    if (dxl_crc16(0x1234, lent(empty), empty.size()) != 0x1234 || dxl_crc16(0, lent(two), two.size()) == 0)
        return 1;
    if (dxl_encode(1, DXL_INST_PING, lent(empty), empty.size(), out.data(), out.size(), 0) != 10)
        return 1;
    std::puts("C++: empty containers");
    return 0;
}
