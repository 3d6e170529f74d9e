/* For the kit's compiler, which brings no headers: as much of time.h as our C programs use, on x86-64 Linux. */
#ifndef GOVAHRIN_TIME_H
#define GOVAHRIN_TIME_H
struct timespec {
    long tv_sec, tv_nsec;
};
#define CLOCK_PROCESS_CPUTIME_ID 2
int clock_gettime(int, struct timespec *);
#endif
