/* What happens where a caller breaks the trust that include/govahrin.h puts in it. `trust overlap` makes calls whose memory overlaps and
   compares answers and bytes with what this file says of them; `trust plan` makes the largest plan, to be run on too small a
   stack, and `trust why` asks why the last draw of its list waited, to be run on the same stack, which is enough for that. */
#include "govahrin.h"
#include <stdio.h>
#include <string.h>

enum { SLOTS = GOVAHRIN_MOST_SLOTS, TIME = GOVAHRIN_MOST_LOAD_TIME, DRAWS = GOVAHRIN_MOST_DRAWS };

/* Job a of the worked sheets. */
static const uint8_t job_a[] = {0, 0, 0, 18, 1, 2, 0, 4, 0, 4, 0, 1, 0, 2, 0, 1, 0, 2, 0, 3, 0, 1};

/* Job a drawn once and twice: its conservative plan, and the draws of that plan's list. */
struct run {
    uint32_t rounds, draws;
    govahrin_answer answer;
    size_t list_len;
    uint8_t list[28], ticks[32], slots[8];
};

static const struct run runs[] = {
    {1, 4, {0, 0, 8, 4, 1, 4}, 14, {0, 0, 0, 10, 1, 0, 1, 0, 0, 0, 2, 1, 0, 3},
     {0, 0, 0, 0, 0, 0, 0, 1, 0, 0, 0, 6, 0, 0, 0, 7}, {0, 1, 1, 0}},
    {2, 8, {0, 0, 19, 11, 3, 4}, 28, {0, 0, 0, 24, 1, 0, 3, 0, 0, 0, 2, 1, 0, 3, 0, 0, 0, 9, 0, 0, 2, 0, 0, 0, 14, 0, 0, 1},
     {0, 0, 0, 0, 0, 0, 0, 1, 0, 0, 0, 6, 0, 0, 0, 7, 0, 0, 0, 8, 0, 0, 0, 13, 0, 0, 0, 14, 0, 0, 0, 18},
     {0, 1, 1, 0, 0, 0, 1, 0}},
};

/* The text of the first list. */
static const uint8_t text_a[] = {'2', ' ', '1', ' ', '3', '\n'};

static uint8_t memory[64], other[64];
static unsigned wrong;

static void hold(const char *call, const struct run *run, govahrin_answer a, const uint8_t *left, const uint8_t *expected,
                 size_t len)
{
    if (memcmp(&a, &run->answer, sizeof a) == 0 && memcmp(left, expected, len) == 0) return;
    printf("%s, %u rounds: answered %u, or left other bytes\n", call, (unsigned)run->rounds, (unsigned)a.number);
    wrong = 1;
}

/* The room lies over the job: the job is read before the list is written. */
static void plan_over_its_job(const struct run *run)
{
    govahrin_answer a;
    memcpy(memory, job_a, sizeof job_a);
    a = govahrin_plan(memory, sizeof job_a, GOVAHRIN_CONSERVATIVE, run->rounds, memory, GOVAHRIN_PLAN_ROOM(run->draws));
    hold("a plan over its job", run, a, memory, run->list, run->list_len);
}

/* The memory for ticks lies over the list, that for slots over the job: both are read before anything is written. */
static void check_over_its_inputs(const struct run *run)
{
    govahrin_answer a;
    memcpy(memory, run->list, run->list_len);
    memcpy(other, job_a, sizeof job_a);
    a = govahrin_check(other, sizeof job_a, memory, run->list_len, run->rounds, memory, sizeof memory, other, sizeof other);
    hold("a check over its list", run, a, memory, run->ticks, GOVAHRIN_TICKS_ROOM(run->draws));
    hold("a check over its job", run, a, other, run->slots, GOVAHRIN_SLOTS_ROOM(run->draws));
}

/* Ticks and slots share their memory: the ticks are written last, and the slots are lost. */
static void check_with_one_memory(const struct run *run)
{
    govahrin_answer a = govahrin_check(job_a, sizeof job_a, run->list, run->list_len, run->rounds, memory, sizeof memory, memory,
                                       sizeof memory);
    hold("a check with one memory for both", run, a, memory, run->ticks, GOVAHRIN_TICKS_ROOM(run->draws));
}

static void hold_written(const char *call, govahrin_written w, const uint8_t *expected, size_t len)
{
    if (w.number == 0 && w.detail == 0 && w.size == len && memcmp(memory, expected, len) == 0) return;
    printf("%s: answered %u, or left other bytes\n", call, (unsigned)w.number);
    wrong = 1;
}

/* The list lies over its text: the text is read before anything is written. */
static void read_over_its_text(void)
{
    memcpy(memory, text_a, sizeof text_a);
    hold_written("a text read over itself", govahrin_read_text(memory, sizeof text_a, memory, sizeof memory), runs[0].list,
                 runs[0].list_len);
}

/* The text lies over its list, and its lines are shorter than their events, so that what is written stays behind what is read.
   With longer lines it would not, and nothing is said of that. */
static void write_over_its_list(void)
{
    memcpy(memory, runs[0].list, runs[0].list_len);
    hold_written("a text over its list", govahrin_write_text(memory, runs[0].list_len, memory, sizeof memory), text_a,
                 sizeof text_a);
}

/* A list that lies in its job: the bytes of the seven draws 0 10 256 256 0 513 3 are the list with the event 2/1/3. Nothing is
   written, so no trust is broken. The last draw waits for that load until tick 11, and it takes out 99, which is never drawn. */
static void why_of_a_list_in_its_job(void)
{
    static const uint8_t both[] = {0, 0, 0, 30, 1, 5, 0, 9, 0, 7, 0, 0, 0, 99, 0, 10, 1,
                                   0, 2, 1, 0,  0, 0, 10, 1, 0, 1, 0, 0, 0,  2, 1,  0, 3};
    static const govahrin_reason expected = {0, 0, 0, GOVAHRIN_NEVER_TAKEN, 5, 0, 0};
    govahrin_reason r = govahrin_why(both, sizeof both, both + 20, sizeof both - 20, 6, 1);
    if (memcmp(&r, &expected, sizeof r) == 0) return;
    printf("why, of a list in its job: answered %u, or other numbers\n", (unsigned)r.number);
    wrong = 1;
}

/* What a list tells of a draw is the same where job and list are in memory that cannot be written. */
static void why_of_constant_memory(void)
{
    static const govahrin_reason expected = {0, 0, 2, 1, 3, 0, 0};
    govahrin_reason r = govahrin_why(job_a, sizeof job_a, runs[1].list, runs[1].list_len, 7, runs[1].rounds);
    if (memcmp(&r, &expected, sizeof r) == 0) return;
    printf("why, of constant memory: answered %u, or other numbers\n", (unsigned)r.number);
    wrong = 1;
}

static uint8_t job[GOVAHRIN_JOB_SIZE(SLOTS, DRAWS)], room[GOVAHRIN_PLAN_ROOM(DRAWS)];

static void put(uint8_t *at, unsigned bytes, uint32_t number)
{
    while (bytes--) at[bytes] = (uint8_t)number, number /= 256;
}

static void put_job(void)
{
    unsigned i;
    put(job, 4, sizeof job - 4);
    job[4] = 1, job[5] = SLOTS;
    put(job + 6, 2, TIME);
    put(job + 8, 2, DRAWS);
    for (i = 0; i < SLOTS; i++) put(job + 10 + 2 * i, 2, GOVAHRIN_FREE);
    for (i = 0; i < DRAWS; i++) put(job + 10 + 2 * SLOTS + 2 * i, 2, i % (SLOTS + 1));
}

static int largest_plan(void)
{
    put_job();
    return govahrin_plan(job, sizeof job, GOVAHRIN_LRU, 1, room, sizeof room).number != 0;
}

/* The list that lru plans: a load for each draw, the slots in turn. */
static int largest_why(void)
{
    unsigned i;
    put_job();
    put(room, 4, sizeof room - 4);
    room[4] = 1;
    put(room + 5, 2, DRAWS);
    for (i = 0; i < DRAWS; i++) {
        put(room + 7 + 7 * i, 4, (TIME + 1) * i);
        room[7 + 7 * i + 4] = (uint8_t)(i % SLOTS);
        put(room + 7 + 7 * i + 5, 2, i % (SLOTS + 1));
    }
    return govahrin_why(job, sizeof job, room, sizeof room, DRAWS - 1, 1).number != 0;
}

int main(int count, char **words)
{
    unsigned i;
    if (count == 2 && strcmp(words[1], "plan") == 0) return largest_plan();
    if (count == 2 && strcmp(words[1], "why") == 0) return largest_why();
    if (count != 2 || strcmp(words[1], "overlap") != 0) return 2;
    for (i = 0; i < 2; i++) {
        plan_over_its_job(&runs[i]);
        check_over_its_inputs(&runs[i]);
        check_with_one_memory(&runs[i]);
    }
    read_over_its_text();
    write_over_its_list();
    why_of_a_list_in_its_job();
    why_of_constant_memory();
    return wrong;
}
