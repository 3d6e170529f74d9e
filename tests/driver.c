/* Calls the library as a host would, case by case: cases in the form of tests/vectors on standard input, the same lines
   with the library's answers on standard output. All memory is lent between guard bytes, and each byte is looked at
   after the call: a refusal leaves all of them as they were, an accepted call writes the first places alone. A line ends
   with MEMORY and a reason where that is not so, and with BACK where a list and its text are not made of each other.
   Where it is asked why a draw waited, nothing is lent to be written, and no byte may change. */
#include "govahrin.h"
#include <stdio.h>
#include <stdlib.h>
#include <string.h>

enum { GUARD = 64, MOST_LENT = 1 << 17, MOST_LINE = 1 << 19 };

/* Lent memory: guard bytes, what the call sees, guard bytes. */
struct lent {
    const char *name;
    uint8_t *at;
    size_t length;
    uint8_t arena[GUARD + 8 + MOST_LENT + GUARD];
    uint8_t before[GUARD + 8 + MOST_LENT + GUARD];
};

static struct lent job = {"the job", 0, 0, {0}, {0}}, list = {"the list", 0, 0, {0}, {0}};
static struct lent text = {"the text", 0, 0, {0}, {0}};
static struct lent room = {"room", 0, 0, {0}, {0}}, ticks = {"ticks", 0, 0, {0}, {0}}, slots = {"slots", 0, 0, {0}, {0}};

static void stop(const char *why)
{
    fprintf(stderr, "driver: %s\n", why);
    exit(2);
}

static size_t whole(const struct lent *lent) { return GUARD + 8 + lent->length + GUARD; }

/* Lends length bytes at an odd place, full of bytes that differ from their neighbours and from case to case. */
static void lend(struct lent *lent, size_t length, unsigned turn)
{
    size_t i;
    if (length > MOST_LENT) stop("a case asks for more lent memory than any job needs");
    lent->length = length;
    for (i = 0; i < whole(lent); i++) lent->arena[i] = (uint8_t)(i * 167 + (i >> 8) * 29 + turn * 59 + 1);
    lent->at = lent->arena + GUARD + turn % 8;
}

static unsigned digit(char c)
{
    if (c >= '0' && c <= '9') return (unsigned)(c - '0');
    if (c >= 'a' && c <= 'f') return (unsigned)(c - 'a') + 10;
    stop("a case has something else than hexadecimal digits");
    return 0;
}

static void lend_bytes(struct lent *lent, const char *hex, unsigned turn)
{
    size_t i, length = strcmp(hex, "-") == 0 ? 0 : strlen(hex) / 2;
    lend(lent, length, turn);
    for (i = 0; i < length; i++) lent->at[i] = (uint8_t)(digit(hex[2 * i]) * 16 + digit(hex[2 * i + 1]));
}

static void remember(struct lent *lent) { memcpy(lent->before, lent->arena, whole(lent)); }

/* What the call is given: in every second case a null pointer stands for no bytes. */
static uint8_t *given(const struct lent *lent, unsigned turn)
{
    return lent->length == 0 && turn % 2 ? NULL : lent->at;
}

/* Says so where a byte changed that is not among the first written ones. */
static void look_at(const struct lent *lent, size_t written)
{
    size_t i, first = (size_t)(lent->at - lent->arena);
    for (i = 0; i < whole(lent); i++)
        if (lent->arena[i] != lent->before[i] && (i < first || i >= first + written)) {
            printf(" MEMORY: %s changed at %ld of %ld", lent->name, (long)i - (long)first, (long)lent->length);
            return;
        }
}

static void print_bytes(const uint8_t *at, size_t length)
{
    size_t i;
    for (i = 0; i < length; i++) printf("%02x", (unsigned)at[i]);
    if (length == 0) putchar('-');
}

static uint32_t number(const uint8_t *at, size_t length)
{
    uint32_t sum = 0;
    while (length--) sum = sum * 256 + *at++;
    return sum;
}

static void print_numbers(const uint8_t *at, size_t count, size_t width)
{
    size_t i;
    for (i = 0; i < count; i++) printf("%s%u", i ? "," : "", (unsigned)number(at + i * width, width));
    if (count == 0) putchar('-');
}

static void print_answer(govahrin_answer answer)
{
    printf("%u %u %u %u %u %u ", (unsigned)answer.number, (unsigned)answer.detail, (unsigned)answer.elapsed,
           (unsigned)answer.waits, (unsigned)answer.loads, (unsigned)answer.longest);
}

/* The draws of all rounds. */
static size_t draws(uint32_t rounds) { return (size_t)rounds * number(job.at + 8, 2); }

static void run_plan(uint32_t plan, uint32_t rounds, size_t room_length, unsigned turn)
{
    govahrin_answer answer;
    size_t written;
    lend(&room, room_length, turn + 1);
    remember(&job), remember(&room);
    answer = govahrin_plan(given(&job, turn), job.length, plan, rounds, given(&room, turn), room.length);
    written = answer.number ? 0 : GOVAHRIN_LIST_SIZE(answer.loads);
    print_answer(answer);
    print_bytes(room.at, written <= room.length ? written : 0);
    look_at(&job, 0), look_at(&room, written);
}

/* Ticks are lent with up to three bytes over, which are no place for a tick. No more draws are printed than there are places. */
static void run_check(uint32_t rounds, size_t tick_places, size_t slot_places, unsigned turn)
{
    govahrin_answer answer;
    size_t n;
    lend(&ticks, GOVAHRIN_TICKS_ROOM(tick_places) + turn % 4, turn + 2);
    lend(&slots, slot_places, turn + 3);
    remember(&job), remember(&list), remember(&ticks), remember(&slots);
    answer = govahrin_check(given(&job, turn), job.length, given(&list, turn), list.length, rounds, given(&ticks, turn),
                            ticks.length, given(&slots, turn), slots.length);
    n = answer.number || draws(rounds) > slots.length ? 0 : draws(rounds);
    print_answer(answer);
    print_numbers(ticks.at, n, 4);
    putchar(' ');
    print_numbers(slots.at, n, 1);
    look_at(&job, 0), look_at(&list, 0), look_at(&ticks, GOVAHRIN_TICKS_ROOM(n)), look_at(&slots, n);
}

/* An event, or the word for none. Of a refusal both events are 0, which is printed as `-`; any other number is printed, so that
   it is seen. */
static void print_event(uint32_t refusal, uint32_t event, uint32_t none, const char *word)
{
    if (refusal && event == 0)
        printf("- ");
    else if (refusal == 0 && event == none)
        printf("%s ", word);
    else
        printf("%u ", (unsigned)event);
}

static void run_why(uint32_t draw, uint32_t rounds, unsigned turn)
{
    govahrin_reason reason;
    remember(&job), remember(&list);
    reason = govahrin_why(given(&job, turn), job.length, given(&list, turn), list.length, draw, rounds);
    printf("%u %u ", (unsigned)reason.number, (unsigned)reason.detail);
    print_event(reason.number, reason.brought, GOVAHRIN_FROM_THE_START, "start");
    print_event(reason.number, reason.taken, GOVAHRIN_NEVER_TAKEN, "none");
    printf("%u %u %u", (unsigned)reason.own, (unsigned)reason.another, (unsigned)reason.nothing);
    look_at(&job, 0), look_at(&list, 0);
}

/* Both calls between lists and texts: the size that they answer is that of what they wrote, and 0 on a refusal. */
static void print_written(govahrin_written answer)
{
    size_t written = answer.number ? 0 : answer.size;
    printf("%u %u ", (unsigned)answer.number, (unsigned)answer.detail);
    print_bytes(room.at, written <= room.length ? written : 0);
    if (answer.number && answer.size) printf(" MEMORY: a refusal has size %u", (unsigned)answer.size);
    if (written > room.length) printf(" MEMORY: size %lu in room of %lu", (unsigned long)written, (unsigned long)room.length);
    look_at(&room, written);
}

/* What was written is read, or what was read is written: that gives back the bytes that were lent. */
static uint8_t back[MOST_LENT];

static void look_back(const struct lent *lent, govahrin_written answer)
{
    if (answer.number || answer.size != lent->length || memcmp(back, lent->at, lent->length) != 0)
        printf(" BACK: not %s as it was, but %u with size %u", lent->name, (unsigned)answer.number, (unsigned)answer.size);
}

static void run_write(size_t room_length, unsigned turn)
{
    govahrin_written answer;
    lend(&room, room_length, turn + 1);
    remember(&list), remember(&room);
    answer = govahrin_write_text(given(&list, turn), list.length, given(&room, turn), room.length);
    print_written(answer);
    look_at(&list, 0);
    if (answer.number == 0) look_back(&list, govahrin_read_text(room.at, answer.size, back, sizeof back));
}

static void run_read(size_t room_length, unsigned turn)
{
    govahrin_written answer;
    lend(&room, room_length, turn + 1);
    remember(&text), remember(&room);
    answer = govahrin_read_text(given(&text, turn), text.length, given(&room, turn), room.length);
    print_written(answer);
    look_at(&text, 0);
    if (answer.number == 0) look_back(&text, govahrin_write_text(room.at, answer.size, back, sizeof back));
}

static const char *word(char *from)
{
    const char *found = strtok(from, " \n");
    if (!found) stop("a case has too few words");
    return found;
}

static size_t size(void) { return strtoul(word(NULL), NULL, 10); }

/* The words after the kind of a case, and the call that they ask for. */
static void run_kind(const char *kind, unsigned turn)
{
    if (strcmp(kind, "plan") == 0) {
        uint32_t plan, rounds;
        lend_bytes(&job, word(NULL), turn);
        plan = (uint32_t)size();
        rounds = (uint32_t)size();
        run_plan(plan, rounds, size(), turn);
    } else if (strcmp(kind, "check") == 0) {
        uint32_t rounds;
        size_t places;
        lend_bytes(&job, word(NULL), turn);
        lend_bytes(&list, word(NULL), turn + 1);
        rounds = (uint32_t)size();
        places = size();
        run_check(rounds, places, size(), turn);
    } else if (strcmp(kind, "why") == 0) {
        uint32_t draw;
        lend_bytes(&job, word(NULL), turn);
        lend_bytes(&list, word(NULL), turn + 1);
        draw = (uint32_t)size();
        run_why(draw, (uint32_t)size(), turn);
    } else if (strcmp(kind, "text-write") == 0) {
        lend_bytes(&list, word(NULL), turn);
        run_write(size(), turn);
    } else if (strcmp(kind, "text-read") == 0) {
        lend_bytes(&text, word(NULL), turn);
        run_read(size(), turn);
    } else {
        stop("a case begins with plan, check, why, text-write or text-read");
    }
}

static void run_case(char *line, unsigned turn)
{
    char *answer = strstr(line, " =>");
    if (answer) *answer = 0;
    line[strlen(line) - (line[strlen(line) - 1] == '\n')] = 0;
    printf("%s => ", line);
    run_kind(word(line), turn);
    putchar('\n');
    fflush(stdout); /* if the next case ends the driver, the comparer sees which one it was */
}

int main(void)
{
    static char line[MOST_LINE];
    unsigned turn;
    for (turn = 0; fgets(line, sizeof line, stdin); turn++) run_case(line, turn);
    return 0;
}
