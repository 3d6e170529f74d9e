/* What the programs of the benchmark share: the job, the list and the text that they are making, the call of the library
   or of the plain program on them, and the clock. */
#ifndef SHARED_H
#define SHARED_H

#include "plain.h"

enum { ROOM = 7 + 7 * 4096, TEXT_ROOM = 18 * 4096 };
enum { AGGRESSIVE = 0, CHECK = 4, WRITE = 5, READ = 6, WHY_MIDDLE = 7, WHY_LAST = 8 };

struct input {
    uint8_t job[10 + 2 * 64 + 2 * 4096], list[ROOM], text[TEXT_ROOM];
    size_t job_len, list_len, text_len;
    unsigned n, k, f, rounds;
};

struct output {
    govahrin_answer answer;
    govahrin_reason reason;
    govahrin_written written;
    uint8_t room[ROOM], ticks[4 * 4096], slots[4096], text[TEXT_ROOM];
};

extern struct input input;
extern struct output ours, plain;

/* A job whose slots start with the symbols 0 to k - 1, for one round; its draws are still to be put. */
void put_job(unsigned n, unsigned k, unsigned f);
void put_draw(unsigned place, unsigned symbol);

/* A list of so many events, each still to be put. */
void put_list(unsigned events);
void put_event(unsigned place, uint32_t tick, unsigned slot, unsigned symbol);

/* Makes the text of the list that was put. */
void put_text(void);

/* Whether the library and the plain program answer the same bytes: one of the four plans, CHECK, WRITE or READ, or why the
   draw in the middle of all rounds or the last one waited, WHY_MIDDLE or WHY_LAST. */
int agree(int what);

/* The nanoseconds of one call, over so many, of the library or the plain program. */
double timed(int library, int what, unsigned calls);

#endif
