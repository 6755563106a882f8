/* See library.c. */
#ifndef TEST_STDLIB_H
#define TEST_STDLIB_H
unsigned long strtoul(const char *text, char **end, int base);
#endif
