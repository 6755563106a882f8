/* See library.c. */
#ifndef TEST_STDIO_H
#define TEST_STDIO_H
#include <stddef.h>
typedef struct library_file FILE;
#define stderr ((FILE *)0)
int fprintf(FILE *file, const char *text, ...);
int printf(const char *text, ...);
FILE *fopen(const char *name, const char *mode);
int fclose(FILE *file);
char *fgets(char *line, int room, FILE *file);
#endif
