/*
 * port.h by Linux's system calls, natively or under qemu-user, without a C library: for x86-64, i686 and rv32. Has the memory
 * functions and, of libgcc, the 64-bit division that dxl_plan asks for.
 */
#include "port.h"

#include "include/string.h"

int main(void);

#if defined __riscv
enum { WRITE = 64, EXIT = 93 };
static void call(long what, long a, long b, long c)
{
    register long number __asm__("a7") = what, first __asm__("a0") = a, second __asm__("a1") = b, third __asm__("a2") = c;
    __asm__ volatile("ecall" : "+r"(first) : "r"(number), "r"(second), "r"(third) : "memory");
}
__asm__(".globl _start\n_start: .option push\n.option norelax\nla gp, __global_pointer$\n.option pop\ncall begin\n");
#elif defined __i386__
enum { WRITE = 4, EXIT = 1 };
static void call(long what, long a, long b, long c)
{
    __asm__ volatile("int $0x80" : "+a"(what) : "b"(a), "c"(b), "d"(c) : "memory");
}
__asm__(".globl _start\n_start: and $-16, %esp\ncall begin\n");
#else
enum { WRITE = 1, EXIT = 60 };
static void call(long what, long a, long b, long c)
{
    __asm__ volatile("syscall" : "+a"(what) : "D"(a), "S"(b), "d"(c) : "rcx", "r11", "memory");
}
__asm__(".globl _start\n_start: and $-16, %rsp\ncall begin\n");
#endif

void begin(void);
void begin(void)
{
    port_end(main());
}

void port_begin(void)
{
}

void port_put(uint8_t byte)
{
    call(WRITE, 1, (long)&byte, 1);
}

void port_end(int code)
{
    for (;;)
        call(EXIT, code, 0, 0);
}

void *memset(void *to, int byte, size_t n)
{
    uint8_t *into = to;
    for (size_t i = 0; i < n; i++)
        into[i] = (uint8_t)byte;
    return to;
}

void *memcpy(void *to, const void *from, size_t n)
{
    return memmove(to, from, n);
}

void *memmove(void *to, const void *from, size_t n)
{
    uint8_t *into = to;
    const uint8_t *bytes = from;
    int up = (uintptr_t)into < (uintptr_t)bytes;
    for (size_t i = 0; i < n; i++) {
        size_t at = up ? i : n - 1 - i;
        into[at] = bytes[at];
    }
    return to;
}

int memcmp(const void *a, const void *b, size_t n)
{
    const uint8_t *left = a, *right = b;
    for (size_t i = 0; i < n; i++) {
        if (left[i] != right[i])
            return left[i] < right[i] ? -1 : 1;
    }
    return 0;
}

uint64_t __udivdi3(uint64_t number, uint64_t by);
uint64_t __udivdi3(uint64_t number, uint64_t by)
{
    uint64_t quotient = 0, rest = 0;
    for (int i = 63; i >= 0; i--) {
        rest = rest << 1 | (number >> i & 1);
        if (rest >= by) {
            rest -= by;
            quotient |= (uint64_t)1 << i;
        }
    }
    return quotient;
}
