/*
 * memmove and memcmp, which the library's calls need seldom, and ARM's own name for memmove. memory.S has memset and memcpy.
 * Compile with -fno-tree-loop-distribute-patterns, or gcc may turn a loop here into a call of itself.
 */
#include "string.h"

#include <stdint.h>

void *memmove(void *to, const void *from, size_t n)
{
    uint8_t *into = to;
    const uint8_t *bytes = from;
    if ((uintptr_t)into - (uintptr_t)bytes >= n) /* not within what is still to be read */
        return memcpy(to, from, n);
    while (n-- > 0)
        into[n] = bytes[n];
    return to;
}

int memcmp(const void *a, const void *b, size_t n)
{
    const uint8_t *left = a, *right = b;
    for (size_t i = 0; i < n; i++) {
        if (left[i] != right[i])
            return left[i] < right[i] ? -1 : 1;
    }
    return 0;
}

void __aeabi_memmove(void *to, const void *from, size_t n);
void __aeabi_memmove(void *to, const void *from, size_t n)
{
    memmove(to, from, n);
}
