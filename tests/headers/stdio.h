/* The kit's compiler comes without C headers: these few lines stand in for one, for the tests alone. */
#ifndef TESTS_STDIO_H
#define TESTS_STDIO_H
#include <stddef.h>
typedef struct TESTS_FILE FILE;
extern FILE *stdin, *stdout, *stderr;
int printf(const char *format, ...);
int fprintf(FILE *file, const char *format, ...);
int fputs(const char *text, FILE *file);
int puts(const char *text);
size_t fread(void *at, size_t size, size_t many, FILE *file);
#endif
