/* For the kit's compiler, which brings no headers: as much of string.h as our C programs use, on x86-64 Linux. */
#ifndef GOVAHRIN_STRING_H
#define GOVAHRIN_STRING_H
#include <stddef.h>
#ifdef __cplusplus
extern "C" {
#endif
void *memcpy(void *, const void *, size_t);
void *memset(void *, int, size_t);
int memcmp(const void *, const void *, size_t);
int strcmp(const char *, const char *);
size_t strlen(const char *);
char *strtok(char *, const char *);
char *strstr(const char *, const char *);
#ifdef __cplusplus
}
#endif
#endif
