/* For the kit's compiler, which brings no headers: as much of stddef.h as our C programs use, on x86-64 Linux. */
#ifndef GOVAHRIN_STDDEF_H
#define GOVAHRIN_STDDEF_H
typedef __SIZE_TYPE__ size_t;
#ifdef __cplusplus
#define NULL 0
#else
#define NULL ((void *)0)
#endif
#endif
