/* What the programs of the benchmark share: see shared.h. */
#include "shared.h"
#include <string.h>
#include <time.h>

struct input input;
struct output ours, plain;

static void put(uint8_t *at, unsigned bytes, uint32_t number)
{
    while (bytes--) {
        at[bytes] = (uint8_t)number;
        number >>= 8;
    }
}

void put_job(unsigned n, unsigned k, unsigned f)
{
    unsigned i;
    input.n = n;
    input.k = k;
    input.f = f;
    input.rounds = 1;
    input.job_len = 10 + 2 * k + 2 * n;
    put(input.job, 4, (uint32_t)input.job_len - 4);
    put(input.job + 4, 1, 1);
    put(input.job + 5, 1, k);
    put(input.job + 6, 2, f);
    put(input.job + 8, 2, n);
    for (i = 0; i < k; i++) put(input.job + 10 + 2 * i, 2, i);
}

void put_draw(unsigned place, unsigned symbol) { put(input.job + 10 + 2 * input.k + 2 * place, 2, symbol); }

void put_list(unsigned events)
{
    input.list_len = 7 + 7 * events;
    put(input.list, 4, 3 + 7 * events);
    put(input.list + 4, 1, 1);
    put(input.list + 5, 2, events);
}

void put_event(unsigned place, uint32_t tick, unsigned slot, unsigned symbol)
{
    put(input.list + 7 + 7 * place, 4, tick);
    put(input.list + 11 + 7 * place, 1, slot);
    put(input.list + 12 + 7 * place, 2, symbol);
}

void put_text(void) { input.text_len = plain_write_text(input.list, input.list_len, input.text, TEXT_ROOM).size; }

static void call_text(int library, int what, struct output *o)
{
    if (what == WRITE && library)
        o->written = govahrin_write_text(input.list, input.list_len, o->text, TEXT_ROOM);
    else if (what == WRITE)
        o->written = plain_write_text(input.list, input.list_len, o->text, TEXT_ROOM);
    else if (library)
        o->written = govahrin_read_text(input.text, input.text_len, o->room, ROOM);
    else
        o->written = plain_read_text(input.text, input.text_len, o->room, ROOM);
}

static void call_why(int library, int what, struct output *o)
{
    const uint32_t all = input.n * input.rounds, draw = what == WHY_LAST ? all - 1 : all / 2;
    if (library)
        o->reason = govahrin_why(input.job, input.job_len, input.list, input.list_len, draw, input.rounds);
    else
        o->reason = plain_why(input.job, input.job_len, input.list, input.list_len, draw, input.rounds);
}

static void call(int library, int what, struct output *o)
{
    if (what == WRITE || what == READ)
        call_text(library, what, o);
    else if (what == WHY_MIDDLE || what == WHY_LAST)
        call_why(library, what, o);
    else if (what == CHECK && library)
        o->answer = govahrin_check(input.job, input.job_len, input.list, input.list_len, input.rounds, o->ticks,
                                   sizeof o->ticks, o->slots, sizeof o->slots);
    else if (what == CHECK)
        o->answer = plain_check(input.job, input.job_len, input.list, input.list_len, input.rounds, o->ticks,
                                sizeof o->ticks, o->slots, sizeof o->slots);
    else if (library)
        o->answer = govahrin_plan(input.job, input.job_len, (uint32_t)what, input.rounds, o->room, ROOM);
    else
        o->answer = plain_plan(input.job, input.job_len, (uint32_t)what, input.rounds, o->room, ROOM);
}

int agree(int what)
{
    memset(&ours, 0, sizeof ours);
    memset(&plain, 0, sizeof plain);
    call(1, what, &ours);
    call(0, what, &plain);
    return memcmp(&ours, &plain, sizeof ours) == 0;
}

/* Of the processor's time, so that other programs on the machine count for less. */
static double nanoseconds(void)
{
    struct timespec now;
    clock_gettime(CLOCK_PROCESS_CPUTIME_ID, &now);
    return 1e9 * (double)now.tv_sec + (double)now.tv_nsec;
}

double timed(int library, int what, unsigned calls)
{
    double from = nanoseconds();
    unsigned i;
    for (i = 0; i < calls; i++) call(library, what, library ? &ours : &plain);
    return (nanoseconds() - from) / calls;
}
