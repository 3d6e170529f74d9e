/* For the kit's compiler, which brings no headers: as much of stdio.h as our C programs use, on x86-64 Linux. */
#ifndef GOVAHRIN_STDIO_H
#define GOVAHRIN_STDIO_H
#include <stddef.h>
#ifdef __cplusplus
extern "C" {
#endif
typedef struct _IO_FILE FILE;
extern FILE *stdin, *stdout, *stderr;
int printf(const char *, ...) __attribute__((format(printf, 1, 2)));
int fprintf(FILE *, const char *, ...) __attribute__((format(printf, 2, 3)));
int sscanf(const char *, const char *, ...) __attribute__((format(scanf, 2, 3)));
int fputs(const char *, FILE *);
int puts(const char *);
int putchar(int);
int fflush(FILE *);
char *fgets(char *, int, FILE *);
#ifdef __cplusplus
}
#endif
#endif
