/* For the kit's compiler, which brings no headers: as much of stdlib.h as our C programs use, on x86-64 Linux. */
#ifndef GOVAHRIN_STDLIB_H
#define GOVAHRIN_STDLIB_H
#include <stddef.h>
#ifdef __cplusplus
extern "C" {
#endif
void exit(int) __attribute__((noreturn));
unsigned long strtoul(const char *, char **, int);
void qsort(void *, size_t, size_t, int (*)(const void *, const void *));
#ifdef __cplusplus
}
#endif
#endif
