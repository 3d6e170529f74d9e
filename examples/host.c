/* A small host: it plans two rounds of a sheet, prints their loads, checks the list before anything is shown, and steps a
   display tick by tick.
   Build it where the library is installed: cc -std=c99 host.c $(pkg-config --cflags --libs govahrin)
   or in the source tree: cc -std=c99 -I include examples/host.c target/staticlib/libgovahrin.a */
#include "govahrin.h"
#include <stdio.h>

enum { SLOTS = 2, LOAD_TIME = 4, DRAWS = 4, ROUNDS = 2, ALL_DRAWS = ROUNDS * DRAWS };

/* Slots with a buoy (1) and a light (2); drawn are buoy, light, rock awash (3), buoy. */
static const uint8_t sheet[GOVAHRIN_JOB_SIZE(SLOTS, DRAWS)] = {0, 0, 0, 18, 1, SLOTS, 0, LOAD_TIME, 0, DRAWS, 0,
                                                               1, 0, 2, 0, 1, 0,     2, 0,         3, 0,     1};
static const char *const picture[] = {"nothing", "a buoy", "a light", "a rock awash"};

/* What the check found out: when each draw of all rounds happens, and from which slot. */
struct times {
    uint8_t ticks[GOVAHRIN_TICKS_ROOM(ALL_DRAWS)];
    uint8_t slots[GOVAHRIN_SLOTS_ROOM(ALL_DRAWS)];
};

static uint32_t number(const uint8_t *at, unsigned bytes)
{
    uint32_t sum = 0;
    while (bytes--) sum = sum * 256 + *at++;
    return sum;
}

static void report(const char *what, govahrin_answer a)
{
    if (a.number)
        printf("%s: refused %u %u: %s\n", what, (unsigned)a.number, (unsigned)a.detail, govahrin_words(a.number));
    else
        printf("%s: elapsed %u, waits %u, loads %u, longest wait %u\n", what, (unsigned)a.elapsed, (unsigned)a.waits,
               (unsigned)a.loads, (unsigned)a.longest);
}

/* The list as its proofreader sees it. The text ends with its size, and has no zero byte after it. */
static void print_list(const uint8_t *list, size_t list_len)
{
    uint8_t text[GOVAHRIN_TEXT_ROOM(ALL_DRAWS)];
    govahrin_written w = govahrin_write_text(list, list_len, text, sizeof text);
    if (w.number == 0) printf("loads, as tick, slot, symbol:\n%.*s", (int)w.size, (const char *)text);
}

/* A display knows slots, ticks and a list. It never looks at what it draws: that is why the list is checked first. */
static void show(const uint8_t *list, const struct times *times, govahrin_answer a)
{
    uint32_t slots[SLOTS], tick, event = 0, draw = 0, begun = 0;
    const uint8_t *load = NULL;
    for (tick = 0; tick < SLOTS; tick++) slots[tick] = number(sheet + 10 + 2 * tick, 2);
    for (tick = 0; tick < a.elapsed; tick++) {
        printf("tick %u:", (unsigned)tick);
        if (load && tick == begun + LOAD_TIME) {
            slots[load[4]] = number(load + 5, 2);
            printf(" slot %u has %s;", (unsigned)load[4], picture[slots[load[4]]]);
            load = NULL;
        }
        if (event < a.loads && number(list + 7 + 7 * event, 4) == tick) {
            load = list + 7 + 7 * event++;
            begun = tick;
            slots[load[4]] = 0;
            printf(" slot %u begins to load;", (unsigned)load[4]);
        }
        if (number(times->ticks + 4 * draw, 4) == tick) {
            if (draw % DRAWS == 0) printf(" round %u begins;", (unsigned)(draw / DRAWS));
            printf(" draws slot %u, %s\n", (unsigned)times->slots[draw], picture[slots[times->slots[draw]]]);
            draw++;
        } else {
            printf(" waits\n");
        }
    }
}

int main(void)
{
    uint8_t list[GOVAHRIN_PLAN_ROOM(ALL_DRAWS)];
    struct times times;
    govahrin_answer planned, checked;
    planned = govahrin_plan(sheet, sizeof sheet, GOVAHRIN_CONSERVATIVE, ROUNDS, list, sizeof list);
    report("plan", planned);
    if (planned.number) return 1;
    print_list(list, GOVAHRIN_LIST_SIZE(planned.loads));
    checked = govahrin_check(sheet, sizeof sheet, list, GOVAHRIN_LIST_SIZE(planned.loads), ROUNDS, times.ticks,
                             sizeof times.ticks, times.slots, sizeof times.slots);
    report("check", checked);
    if (checked.number) return 1;
    show(list, &times, checked);

    /* The same list with its first load one tick early. The light is gone before it is drawn, so that the load of the second round
       has to serve the first, and no load is left for the second. */
    list[10]--;
    checked = govahrin_check(sheet, sizeof sheet, list, GOVAHRIN_LIST_SIZE(planned.loads), ROUNDS, times.ticks,
                             sizeof times.ticks, times.slots, sizeof times.slots);
    report("check, one tick early", checked);
    return 0;
}
