/* Times the library and the plain C program on the same inputs in one process, turn about, and stops if they ever answer
   differently. Writes a line a repeat: sheet, call, n, k, F, then the nanoseconds of the library and of the plain program.
   A sheet that is redrawn has the number of rounds in its name, as chart-4. For a text n is the number of events, and k and
   F are 0. */
#include "shared.h"
#include <stdio.h>
#include <stdlib.h>

enum { REPEATS = 5, SHORTEST = 8000000 };

static const char *const names[] = {"aggressive", "conservative", "opt",        "lru",     "check",
                                    "write",      "read",         "why-middle", "why-last"};

/* What the check and the question why are given where no other list is made: the list of conservative. */
static void put_conservative(void)
{
    govahrin_answer planned = plain_plan(input.job, input.job_len, GOVAHRIN_CONSERVATIVE, input.rounds, input.list, ROOM);
    input.list_len = 7 + 7 * planned.loads;
}

static uint32_t dice(uint32_t sides)
{
    static uint32_t state = 1;
    state = state * 1664525u + 1013904223u;
    return (state >> 8) % sides;
}

/* A sheet like a chart: twice as many symbols as slots; three draws of four repeat one of the last k. */
static void make_chart(unsigned n, unsigned k, unsigned f)
{
    unsigned i, symbol[4096];
    put_job(n, k, f);
    for (i = 0; i < n; i++) {
        symbol[i] = i > k && dice(4) ? symbol[i - 1 - dice(k)] : dice(2 * k);
        put_draw(i, symbol[i]);
    }
    put_conservative();
}

/* All draws different, and none of a starting symbol: every draw needs a load, and what goes out never comes up again, so
   that each search for it goes on to the last draw. */
static void make_different(unsigned n, unsigned k, unsigned f)
{
    unsigned i;
    put_job(n, k, f);
    for (i = 0; i < n; i++) put_draw(i, k + i);
    put_conservative();
}

/* The worst for aggressive: almost all draws are of the last slot, each other slot is drawn from once at the end, and only
   the very last draw is missing. So each tick looks for it through all draws that remain and all slots, looks for each
   slot's next draw nearly as far, and begins no load. */
static void make_late(unsigned n, unsigned k, unsigned f)
{
    unsigned i;
    put_job(n, k, f);
    for (i = 0; i < n - k; i++) put_draw(i, k - 1);
    for (i = 0; i < k - 1; i++) put_draw(n - k + i, i);
    put_draw(n - 1, k);
}

/* The worst for the check: n loads, of which only the last is of use, each begun a tick after the one before has ended.
   Until then the first draw waits; then all draws are of the last slot. So every search goes through all slots. */
static void make_useless(unsigned n, unsigned k, unsigned f)
{
    unsigned i;
    put_job(n, k, f);
    put_list(n);
    for (i = 0; i < n; i++) put_draw(i, k);
    for (i = 0; i < n - 1; i++) put_event(i, i * (f + 1), 0, k + 1 + i);
    put_event(n - 1, (n - 1) * (f + 1), k - 1, k);
}

/* The longest check: every draw waits for one load that begins in the last tick there is. */
static void make_longest(void)
{
    unsigned i;
    put_job(4096, 64, 1000);
    for (i = 0; i < 4096; i++) put_draw(i, 999);
    put_list(1);
    put_event(0, GOVAHRIN_LAST_TICK, 63, 999);
}

/* A list with all sizes of numbers: ticks that come to a million, any slot, any symbol; and its text. */
static void make_text(unsigned events)
{
    unsigned i;
    uint32_t tick = 0;
    input.n = events;
    input.k = input.f = 0;
    input.rounds = 1;
    put_list(events);
    for (i = 0; i < events; i++) {
        put_event(i, tick, dice(256), dice(65536));
        tick += 1 + dice(500);
    }
    put_text();
}

/* The longest text: every line has its 18 bytes. */
static void make_wide(void)
{
    unsigned i;
    input.n = 4096;
    input.k = input.f = 0;
    input.rounds = 1;
    put_list(4096);
    for (i = 0; i < 4096; i++) put_event(i, GOVAHRIN_LAST_TICK - 4095 + i, 255, 65535 - i % 1000);
    put_text();
}

static void print_repeat(const char *sheet, int what, double mine, double theirs)
{
    fputs(sheet, stdout);
    if (input.rounds > 1) printf("-%u", input.rounds);
    printf(" %s %u %u %u %.0f %.0f\n", names[what], input.n, input.k, input.f, mine, theirs);
}

static void row(const char *sheet, int what)
{
    double mine = 0, theirs, one;
    unsigned i, calls;
    if (!agree(what) || ours.answer.number || ours.reason.number || ours.written.number) {
        fprintf(stderr, "bench: the library and the plain program answer differently: %s, %s, n %u, k %u, F %u, rounds %u\n",
                sheet, names[what], input.n, input.k, input.f, input.rounds);
        exit(1);
    }
    one = timed(0, what, 1);
    calls = one > SHORTEST ? 1 : (unsigned)(SHORTEST / (one + 1)) + 1;
    for (i = 0; i < REPEATS; i++) {
        if (i % 2) mine = timed(1, what, calls);
        theirs = timed(0, what, calls);
        if (i % 2 == 0) mine = timed(1, what, calls);
        print_repeat(sheet, what, mine, theirs);
    }
    fflush(stdout);
}

/* Why a draw in the middle and the last draw waited. The list is followed to its end for either. */
static void whys(const char *sheet)
{
    row(sheet, WHY_MIDDLE);
    row(sheet, WHY_LAST);
}

static void chart(unsigned n, unsigned k, unsigned f)
{
    int what;
    make_chart(n, k, f);
    for (what = 0; what <= CHECK; what++) row("chart", what);
    whys("chart");
}

static void worst(unsigned n, unsigned k, unsigned f)
{
    int what;
    make_different(n, k, f);
    for (what = 0; what <= CHECK; what++) row("different", what);
    whys("different");
    make_late(n, k, f);
    row("worst", AGGRESSIVE);
    make_useless(n, k, f);
    row("worst", CHECK);
    whys("worst");
}

/* The sheet that was made, redrawn so often; the check and the question why are given the list that conservative plans for
   all rounds. */
static void redraw(const char *sheet, unsigned rounds)
{
    int what;
    input.rounds = rounds;
    put_conservative();
    for (what = 0; what <= CHECK; what++) row(sheet, what);
    whys(sheet);
}

/* Made last, so that the sheets before them, which go by the same dice, do not depend on them. */
static void sheets_in_rounds(void)
{
    static const unsigned n[] = {64, 256};
    unsigned i;
    for (i = 0; i < 2; i++) {
        make_chart(n[i], 16, 30);
        redraw("chart", 4);
        redraw("chart", 16);
    }
    make_chart(64, 4, 1);
    redraw("chart", 4);
    make_chart(256, 16, 1);
    redraw("chart", 16);
    make_different(256, 64, 1);
    redraw("different", 16);
}

static void texts(void)
{
    static const unsigned events[] = {64, 512, 4096};
    unsigned i;
    for (i = 0; i < 3; i++) {
        make_text(events[i]);
        row("text", WRITE);
        row("text", READ);
    }
    make_wide();
    row("wide", WRITE);
    row("wide", READ);
}

int main(void)
{
    unsigned i;
    static const unsigned n[] = {256, 512, 1024, 2048, 4096}, k[] = {4, 8, 16, 32, 64}, f[] = {1, 10, 100, 1000};
    for (i = 0; i < 5; i++) chart(n[i], 16, 30);
    for (i = 0; i < 5; i++)
        if (k[i] != 16) chart(1024, k[i], 30);
    for (i = 0; i < 4; i++) chart(1024, 16, f[i]);
    chart(256, 4, 1);
    chart(4096, 4, 1000);
    chart(4096, 64, 1);
    chart(4096, 64, 1000);
    make_longest();
    row("longest", CHECK);
    whys("longest");
    for (i = 0; i < 5; i++) worst(n[i], 64, 1);
    for (i = 0; i < 4; i++) worst(1024, k[i], 1);
    worst(1024, 64, 1000);
    texts();
    sheets_in_rounds();
    return 0;
}
