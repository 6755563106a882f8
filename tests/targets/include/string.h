/* See library.c; the first four are the board's memory functions. */
#ifndef TEST_STRING_H
#define TEST_STRING_H
#include <stddef.h>
void *memcpy(void *to, const void *from, size_t n);
void *memmove(void *to, const void *from, size_t n);
void *memset(void *to, int byte, size_t n);
int memcmp(const void *a, const void *b, size_t n);
char *strrchr(const char *text, int c);
char *strstr(const char *text, const char *part);
#endif
