/* Tells why draws waited: it plans two rounds of a sheet, and asks of each draw that waited what was loading meanwhile, and by
   which loads of the list its symbol went and came.
   Build it where the library is installed: cc -std=c99 why.c $(pkg-config --cflags --libs govahrin)
   or in the source tree: cc -std=c99 -I include examples/why.c target/staticlib/libgovahrin.a */
#include "govahrin.h"
#include <stdio.h>

enum { SLOTS = 2, DRAWS = 4, ROUNDS = 2, ALL_DRAWS = ROUNDS * DRAWS };

/* Two slots with a buoy and a light at the start, a load time of four ticks; then draw the buoy, the light, a wreck, the buoy. */
static const uint8_t sheet[GOVAHRIN_JOB_SIZE(SLOTS, DRAWS)] = {0, 0, 0, GOVAHRIN_JOB_SIZE(SLOTS, DRAWS) - 4, 1,
                                                               SLOTS, 0, 4, 0, DRAWS,
                                                               0, 1, 0, 2,
                                                               0, 1, 0, 2, 0, 3, 0, 1};

static const char *const picture[] = {"nothing", "a buoy", "a light", "a wreck"};

static void tell(uint32_t draw, govahrin_reason r)
{
    printf("draw %u, %s, waited %u ticks while it was loading, %u while another symbol was, %u while nothing was\n",
           (unsigned)draw, picture[sheet[10 + 2 * SLOTS + 2 * (draw % DRAWS) + 1]], (unsigned)r.own, (unsigned)r.another,
           (unsigned)r.nothing);
    if (r.taken != GOVAHRIN_NEVER_TAKEN) printf("  load %u had taken it out, counted from 0\n", (unsigned)r.taken);
    if (r.brought == GOVAHRIN_FROM_THE_START)
        printf("  it was in a slot from the start\n");
    else
        printf("  load %u brought it, counted from 0\n", (unsigned)r.brought);
}

int main(void)
{
    uint8_t list[GOVAHRIN_PLAN_ROOM(ALL_DRAWS)];
    uint32_t draw;
    govahrin_answer planned =
        govahrin_plan(sheet, sizeof sheet, GOVAHRIN_CONSERVATIVE, ROUNDS, list, sizeof list);
    if (planned.number) return 1;
    for (draw = 0; draw <= ALL_DRAWS; draw++) {
        govahrin_reason r = govahrin_why(sheet, sizeof sheet, list, GOVAHRIN_LIST_SIZE(planned.loads), draw, ROUNDS);
        if (r.number) {
            printf("draw %u: refused %u: %s\n", (unsigned)draw, (unsigned)r.number, govahrin_words(r.number));
        } else if (r.own + r.another + r.nothing) {
            tell(draw, r);
        }
    }
    return 0;
}
