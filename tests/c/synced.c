/*
 * Stands between the tool dxl and the C library, by LD_PRELOAD: says on standard error when a file or a folder is synced, and when one
 * gets its name. cli_test.py holds the order.
 */
#define _GNU_SOURCE
#include <fcntl.h>
#include <stdio.h>
#include <sys/stat.h>
#include <sys/syscall.h>
#include <unistd.h>

int fsync(int file)
{
    struct stat about;
    fputs(fstat(file, &about) == 0 && S_ISDIR(about.st_mode) ? "folder\n" : "file\n", stderr);
    return (int)syscall(SYS_fsync, file);
}

int rename(const char *from, const char *to)
{
    fputs("rename\n", stderr);
    return (int)syscall(SYS_renameat, AT_FDCWD, from, AT_FDCWD, to);
}
