/* Measures how much stack a call uses: paints the memory below the stack pointer, makes the call, and looks how deep the paint
   is gone. Accepted calls and refusals, on the largest job, rounds, lists and texts. The words are `plan`, `check`, `why` or
   `text` and a figure; status 1 where more is used. Compile it without optimisation: it reads what a function had, after that
   function has ended. It calls neither memcpy nor memset, so that a loader which binds late looks them up within the library's
   calls. */
#include "govahrin.h"
#include <stdio.h>
#include <stdlib.h>
#include <string.h>

enum { SLOTS = GOVAHRIN_MOST_SLOTS, TIME = GOVAHRIN_MOST_LOAD_TIME, DRAWS = GOVAHRIN_MOST_DRAWS, LAST = DRAWS - 1 };
enum { ROUND = SLOTS + 1, ROUNDS = LAST / ROUND, PAINTED = 1 << 18 };

static uint8_t job[GOVAHRIN_JOB_SIZE(SLOTS, DRAWS)], list[GOVAHRIN_PLAN_ROOM(DRAWS)], room[GOVAHRIN_PLAN_ROOM(DRAWS)];
static uint8_t ticks[GOVAHRIN_TICKS_ROOM(DRAWS)], slots[GOVAHRIN_SLOTS_ROOM(DRAWS)];
static uint8_t text[GOVAHRIN_TEXT_ROOM(DRAWS) + 1];
static size_t job_len, list_len, room_len, ticks_len, text_len;
static uint32_t rounds, draw;
static uint8_t *const last_event = list + GOVAHRIN_LIST_SIZE(LAST);

/* The call to measure: one of the plans, a check, why a draw waited, the writer or the reader of a text. The number that it
   answers. */
enum { CHECK = 99, WHY, WRITE, READ };
static uint32_t called, answered;

static volatile uint8_t *deepest;
static volatile uint8_t paint;
static unsigned long most;
static int failed;

static __attribute__((noinline)) void paint_below(void)
{
    volatile uint8_t area[PAINTED];
    size_t i;
    for (i = 0; i < PAINTED; i++) area[i] = paint;
    deepest = area;
}

static __attribute__((noinline)) void call(void)
{
    if (called == CHECK)
        answered = govahrin_check(job, job_len, list, list_len, rounds, ticks, ticks_len, slots, sizeof slots).number;
    else if (called == WHY)
        answered = govahrin_why(job, job_len, list, list_len, draw, rounds).number;
    else if (called == WRITE)
        answered = govahrin_write_text(list, list_len, text, text_len).number;
    else if (called == READ)
        answered = govahrin_read_text(text, text_len, room, room_len).number;
    else
        answered = govahrin_plan(job, job_len, called, rounds, room, room_len).number;
}

/* The bytes below this function's frame that are painted no more. The few of call() itself are counted in. */
static __attribute__((noinline)) unsigned long used(void)
{
    volatile uint8_t *top = (volatile uint8_t *)__builtin_frame_address(0);
    paint_below();
    call();
    while (deepest < top && *deepest == paint) deepest++;
    return (unsigned long)(top - deepest);
}

/* Makes the call under two paints, since a call may leave a byte of one paint's value. */
static void measure(uint32_t which, uint32_t number)
{
    unsigned turn;
    called = which;
    for (turn = 0; turn < 2; turn++) {
        unsigned long bytes;
        paint = turn ? 0x5a : 0xa5;
        bytes = used();
        if (most < bytes) most = bytes;
        if (answered == number) continue;
        printf("a call answered %u where %u was to be measured\n", (unsigned)answered, (unsigned)number);
        failed = 1;
    }
}

static void put(uint8_t *at, unsigned bytes, uint32_t number)
{
    while (bytes--) at[bytes] = (uint8_t)number, number /= 256;
}

/* The largest calls; each case then breaks one thing. The slots are free and the draws come round after 65 symbols, so that by
   lru each draw needs a load of F ticks: its list has an event for each, and the slots come round too. The last draw is asked
   about: its symbol was brought and taken out many times. */
static void restore(void)
{
    unsigned i;
    rounds = 1, draw = LAST;
    job_len = sizeof job, list_len = sizeof list, room_len = sizeof room, ticks_len = sizeof ticks;
    put(job, 4, sizeof job - 4);
    job[4] = 1, job[5] = SLOTS;
    put(job + 6, 2, TIME);
    put(job + 8, 2, DRAWS);
    for (i = 0; i < SLOTS; i++) put(job + 10 + 2 * i, 2, GOVAHRIN_FREE);
    for (i = 0; i < DRAWS; i++) put(job + 10 + 2 * SLOTS + 2 * i, 2, i % (SLOTS + 1));
    put(list, 4, sizeof list - 4);
    list[4] = 1;
    put(list + 5, 2, DRAWS);
    for (i = 0; i < DRAWS; i++) {
        put(list + 7 + 7 * i, 4, (TIME + 1) * i);
        list[7 + 7 * i + 4] = (uint8_t)(i % SLOTS);
        put(list + 7 + 7 * i + 5, 2, i % (SLOTS + 1));
    }
}

/* The first draws of the job alone. */
static void keep_draws(unsigned draws)
{
    job_len = GOVAHRIN_JOB_SIZE(SLOTS, draws);
    put(job, 4, (uint32_t)job_len - 4);
    put(job + 8, 2, draws);
}

/* The first events of the list alone. */
static void keep_events(unsigned events)
{
    list_len = GOVAHRIN_LIST_SIZE(events);
    put(list, 4, (uint32_t)list_len - 4);
    put(list + 5, 2, events);
}

/* The same draws but for the last, in rounds of 65. */
static void restore_rounds(void)
{
    restore(), keep_draws(ROUND), keep_events(LAST);
    rounds = ROUNDS, draw = LAST - 1;
}

/* Jobs and rounds that a plan, a check and why a draw waited refuse. */
static void measure_jobs(uint32_t which)
{
    restore(), job_len--;
    measure(which, GOVAHRIN_JOB_LENGTH);
    restore(), job[4] = 2;
    measure(which, GOVAHRIN_JOB_VERSION);
    restore(), job[5] = SLOTS + 1;
    measure(which, GOVAHRIN_JOB_LIMITS);
    restore(), put(job + 8, 2, LAST);
    measure(which, GOVAHRIN_JOB_SIZE_WRONG);
    restore(), put(job + sizeof job - 2, 2, GOVAHRIN_FREE);
    measure(which, GOVAHRIN_JOB_SYMBOLS);
    restore_rounds(), rounds++;
    measure(which, GOVAHRIN_ROUNDS_NUMBER);
}

static void measure_plan(uint32_t which)
{
    restore();
    measure(which, GOVAHRIN_ACCEPTED);
    restore_rounds();
    measure(which, GOVAHRIN_ACCEPTED);
    measure_jobs(which);
    restore(), room_len--;
    measure(which, GOVAHRIN_ROOM);
}

/* Lists that a check and why a draw waited accept or refuse. */
static void measure_lists(uint32_t which)
{
    const uint32_t before = (TIME + 1) * (LAST - 1);
    restore();
    measure(which, GOVAHRIN_ACCEPTED);
    restore_rounds();
    measure(which, GOVAHRIN_ACCEPTED);
    measure_jobs(which);
    restore(), list[4] = 2;
    measure(which, GOVAHRIN_LIST_BYTES);
    restore(), put(last_event, 4, before);
    measure(which, GOVAHRIN_EVENT_TICK);
    restore(), put(last_event, 4, before + 1);
    measure(which, GOVAHRIN_EVENT_BUSY);
    restore(), last_event[4] = SLOTS;
    measure(which, GOVAHRIN_EVENT_SLOT);
    restore(), put(last_event + 5, 2, GOVAHRIN_FREE);
    measure(which, GOVAHRIN_EVENT_SYMBOL);
    restore(), keep_events(LAST);
    measure(which, GOVAHRIN_DRAW_NEVER);
    restore(), keep_draws(LAST);
    measure(which, GOVAHRIN_EVENT_LEFT);
}

static void measure_checks(void)
{
    measure_lists(CHECK);
    restore(), ticks_len--;
    measure(CHECK, GOVAHRIN_ROOM);
}

static void measure_why(void)
{
    measure_lists(WHY);
    restore(), draw = 0;
    measure(WHY, GOVAHRIN_ACCEPTED);
    restore(), draw = DRAWS;
    measure(WHY, GOVAHRIN_DRAW_NUMBER);
}

static void put_decimal(uint8_t *at, unsigned digits, uint32_t number, uint8_t stop)
{
    at[digits] = stop;
    while (digits--) at[digits] = (uint8_t)('0' + number % 10), number /= 10;
}

/* The longest text, of 18 bytes a line, and its list. */
static void restore_text(void)
{
    unsigned i;
    restore();
    text_len = GOVAHRIN_TEXT_ROOM(DRAWS);
    for (i = 0; i < DRAWS; i++) {
        const uint32_t tick = GOVAHRIN_LAST_TICK - LAST + i;
        put_decimal(text + 18 * i, 7, tick, ' ');
        put_decimal(text + 18 * i + 8, 3, 255, ' ');
        put_decimal(text + 18 * i + 12, 5, 65535, '\n');
        put(list + 7 + 7 * i, 4, tick);
        put(list + 7 + 7 * i + 4, 3, 0xffffff);
    }
}

static void measure_texts(void)
{
    uint8_t *const last_line = text + GOVAHRIN_TEXT_ROOM(LAST);
    restore_text();
    measure(WRITE, GOVAHRIN_ACCEPTED);
    restore_text(), list[4] = 2;
    measure(WRITE, GOVAHRIN_LIST_BYTES);
    restore_text(), put(last_event, 4, GOVAHRIN_LAST_TICK + 1);
    measure(WRITE, GOVAHRIN_EVENT_TICK);
    restore_text(), text_len--;
    measure(WRITE, GOVAHRIN_ROOM);
    restore_text();
    measure(READ, GOVAHRIN_ACCEPTED);
    restore_text(), text_len--;
    measure(READ, GOVAHRIN_TEXT_LINE);
    restore_text(), text[text_len++] = '7';
    measure(READ, GOVAHRIN_TEXT_LINE);
    restore_text(), put_decimal(last_line, 7, GOVAHRIN_LAST_TICK + 1, ' ');
    measure(READ, GOVAHRIN_EVENT_TICK);
    restore_text(), room_len--;
    measure(READ, GOVAHRIN_ROOM);
}

int main(int count, char **words)
{
    uint32_t which;
    unsigned long figure = count == 3 ? strtoul(words[2], NULL, 10) : 0;
    if (figure == 0) return 2;
    if (strcmp(words[1], "check") == 0) {
        measure_checks();
    } else if (strcmp(words[1], "why") == 0) {
        measure_why();
    } else if (strcmp(words[1], "text") == 0) {
        measure_texts();
    } else {
        for (which = GOVAHRIN_AGGRESSIVE; which <= GOVAHRIN_LRU; which++) measure_plan(which);
        restore();
        measure(GOVAHRIN_LRU + 1, GOVAHRIN_PLAN_NUMBER);
    }
    printf("%lu\n", most);
    return failed || most > figure;
}
