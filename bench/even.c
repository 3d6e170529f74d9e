/* Times checks that differ only in the slot that all their draws come from: slot 0, slot k - 1, or none, turn about. Writes
   a line a repeat, in the form of bench.c's: what is compared with slot 0, whose check it is, n, k, F, then the nanoseconds
   of the check and of that with slot 0. */
#include "shared.h"
#include <stdio.h>
#include <stdlib.h>

enum { REPEATS = 5, TURNS = 50, SHORTEST = 200000 };
enum { FIRST, LAST, NONE, PLACES };

static struct input sheets[PLACES];
static const uint32_t with_loads[PLACES] = {14, 14, 13};

/* All draws are of the symbol that stands in that slot at the start, or of one that is never in a slot. */
static void put_draws(unsigned n, unsigned k, int place)
{
    unsigned i;
    put_job(n, k, 1);
    for (i = 0; i < n; i++) put_draw(i, place == FIRST ? 0 : place == LAST ? k - 1 : 999);
}

/* Draws from that slot and no event. Without loads a draw that no slot serves is refused at once. */
static void make_draws(unsigned k, int place)
{
    put_draws(4096, k, place);
    put_list(0);
}

/* In each tick an event that loads what is never drawn, into slot 1. There is one more than draws, so no list is accepted
   and none hands out its draws: where a slot serves them an event is left, and where none does the first draw waits until
   no event is left. */
static void make_loads(unsigned k, int place)
{
    unsigned i;
    put_draws(4095, k, place);
    put_list(4096);
    for (i = 0; i < 4096; i++) put_event(i, i, 1, 1000 + i);
}

static void keep(int place, uint32_t number)
{
    if (!agree(CHECK) || ours.answer.number != number) {
        fprintf(stderr, "even: the library and the plain program answer differently, or not as meant: n %u, k %u\n", input.n,
                input.k);
        exit(1);
    }
    sheets[place] = input;
}

/* A repeat: each sheet takes its turn many times, so that what slows the machine for a while slows all of them. */
static void repeat(int library, const char *lists, int places)
{
    double sum[PLACES] = {0};
    unsigned calls = (unsigned)(SHORTEST / timed(library, CHECK, 1)) + 1;
    int turn, place;
    for (turn = 0; turn < TURNS; turn++)
        for (place = 0; place < places; place++) {
            input = sheets[place];
            sum[place] += timed(library, CHECK, calls);
        }
    for (place = LAST; place < places; place++)
        printf("%s-%s %s %u %u %u %.0f %.0f\n", lists, place == LAST ? "last" : "none", library ? "library" : "plain",
               input.n, input.k, input.f, sum[place] / TURNS, sum[FIRST] / TURNS);
    fflush(stdout);
}

int main(void)
{
    static const unsigned k[] = {4, 16, 64};
    int i, place, library, again;
    for (i = 0; i < 3; i++) {
        for (place = 0; place < NONE; place++) {
            make_draws(k[i], place);
            keep(place, 0);
        }
        for (library = 0; library < 2; library++)
            for (again = 0; again < REPEATS; again++) repeat(library, "draws", NONE);
        for (place = 0; place < PLACES; place++) {
            make_loads(k[i], place);
            keep(place, with_loads[place]);
        }
        for (library = 0; library < 2; library++)
            for (again = 0; again < REPEATS; again++) repeat(library, "loads", PLACES);
    }
    return 0;
}
