/* The rules of documents 01 and 02 in plain C, as a careful programmer would write them for reading: one tick at a time,
   each slot search a scan over the slots, each next-draw search a scan over the remaining draws, a draw explained along
   one run of its list, a text read once from its first byte to its last. The benchmark holds the library against it. */
#include "plain.h"
#include <string.h>

enum { MOST_SLOTS = 64, MOST_LOAD_TIME = 1000, MOST_DRAWS = 4096, MOST_EVENTS = 4096, LAST_TICK = 8388607 };
enum { NOTHING = 65535, LAST_SLOT = 255, LAST_SYMBOL = 65535 };

struct job {
    uint32_t slots, load_time, draws, round; /* draws: those of all rounds; round: those of one */
    const uint8_t *starting, *drawn;
};

struct event {
    uint32_t tick, slot, symbol;
};

struct display {
    uint32_t tick, next, waits, loads, pause, longest; /* pause: the waits since the last draw */
    uint16_t held[MOST_SLOTS];
    int under_way;
    struct event load;
};

static uint32_t two(const uint8_t *at) { return (uint32_t)at[0] << 8 | at[1]; }
static uint32_t four(const uint8_t *at) { return two(at) << 16 | two(at + 2); }

static void put_two(uint8_t *at, uint32_t number)
{
    at[0] = (uint8_t)(number >> 8);
    at[1] = (uint8_t)number;
}

static void put_four(uint8_t *at, uint32_t number)
{
    put_two(at, number >> 16);
    put_two(at + 2, number & 65535);
}

static govahrin_answer refused(uint32_t number, uint32_t detail)
{
    govahrin_answer answer = {number, detail, 0, 0, 0, 0};
    return answer;
}

static govahrin_answer accepted(const struct display *display)
{
    govahrin_answer answer = {0, 0, display->tick, display->waits, display->loads, display->longest};
    return answer;
}

/* ---- the job and the list, byte for byte */

static uint32_t draw_symbol(const struct job *job, uint32_t place) { return two(job->drawn + 2 * place); }
static uint32_t starting_symbol(const struct job *job, uint32_t slot) { return two(job->starting + 2 * slot); }

static int symbols_are_right(const struct job *job)
{
    uint32_t i, j;
    for (i = 0; i < job->slots; i++)
        for (j = 0; j < i; j++)
            if (starting_symbol(job, i) != NOTHING && starting_symbol(job, i) == starting_symbol(job, j)) return 0;
    for (i = 0; i < job->round; i++)
        if (draw_symbol(job, i) == NOTHING) return 0;
    return 1;
}

/* Answers 0 and fills in the job, or answers the refusal. */
static uint32_t read_job(const uint8_t *bytes, size_t length, struct job *job)
{
    if (length < 10 || four(bytes) != length - 4) return 1;
    if (bytes[4] != 1) return 2;
    job->slots = bytes[5];
    job->load_time = two(bytes + 6);
    job->round = two(bytes + 8);
    if (job->slots < 1 || job->slots > MOST_SLOTS) return 3;
    if (job->load_time < 1 || job->load_time > MOST_LOAD_TIME || job->round > MOST_DRAWS) return 3;
    if (length - 4 != 6 + 2 * job->slots + 2 * job->round) return 4;
    job->starting = bytes + 10;
    job->drawn = job->starting + 2 * job->slots;
    return symbols_are_right(job) ? 0 : 5;
}

/* The same for a job in rounds. The draws of several rounds are copied into the row, one round after the other, so that
   nothing else knows of rounds; one round is read where it is. */
static uint32_t read_rounds(const uint8_t *bytes, size_t length, uint32_t rounds, uint8_t *row, struct job *job)
{
    uint64_t draws;
    uint32_t place, refusal = read_job(bytes, length, job);
    if (refusal) return refusal;
    draws = (uint64_t)rounds * job->round;
    if (rounds == 0 || draws > MOST_DRAWS) return 17;
    job->draws = (uint32_t)draws;
    if (rounds == 1) return 0;
    for (place = 0; place < job->draws; place += job->round) memcpy(row + 2 * place, job->drawn, 2 * job->round);
    job->drawn = row;
    return 0;
}

static int list_is_right(const uint8_t *bytes, size_t length)
{
    if (length < 7 || four(bytes) != length - 4 || bytes[4] != 1) return 0;
    return two(bytes + 5) <= MOST_EVENTS && length - 4 == 3 + 7 * two(bytes + 5);
}

static struct event read_event(const uint8_t *list, uint32_t place)
{
    const uint8_t *at = list + 7 + 7 * place;
    struct event event;
    event.tick = four(at);
    event.slot = at[4];
    event.symbol = two(at + 5);
    return event;
}

static void write_head(uint8_t *list, uint32_t events)
{
    put_four(list, 3 + 7 * events);
    list[4] = 1;
    put_two(list + 5, events);
}

static void write_event(uint8_t *list, uint32_t place, struct event event)
{
    uint8_t *at = list + 7 + 7 * place;
    put_four(at, event.tick);
    at[4] = (uint8_t)event.slot;
    put_two(at + 5, event.symbol);
}

/* ---- one tick of the display */

static void start(struct display *display, const struct job *job)
{
    uint32_t slot;
    display->tick = display->next = display->waits = display->loads = display->pause = display->longest = 0;
    display->under_way = 0;
    for (slot = 0; slot < job->slots; slot++) display->held[slot] = (uint16_t)starting_symbol(job, slot);
}

/* The slot that holds a symbol, or the number of slots. */
static uint32_t slot_of(const struct display *display, const struct job *job, uint32_t symbol)
{
    uint32_t slot = 0;
    while (slot < job->slots && display->held[slot] != symbol) slot++;
    return slot;
}

static void land(struct display *display, const struct job *job)
{
    if (display->under_way && display->load.tick + job->load_time == display->tick) {
        display->held[display->load.slot] = (uint16_t)display->load.symbol;
        display->under_way = 0;
    }
}

/* Answers 0, or the refusal. */
static uint32_t begin(struct display *display, const struct job *job, struct event event)
{
    if (display->under_way) return 10;
    if (event.slot >= job->slots) return 11;
    if (event.symbol == NOTHING || slot_of(display, job, event.symbol) < job->slots) return 12;
    display->held[event.slot] = NOTHING;
    display->load = event;
    display->under_way = 1;
    display->loads++;
    return 0;
}

/* Answers the slot that was drawn from, or the number of slots for a wait. */
static uint32_t draw_or_wait(struct display *display, const struct job *job)
{
    uint32_t slot = slot_of(display, job, draw_symbol(job, display->next));
    if (slot < job->slots) {
        display->next++;
        display->longest = display->pause > display->longest ? display->pause : display->longest;
        display->pause = 0;
    } else {
        display->waits++;
        display->pause++;
    }
    display->tick++;
    return slot;
}

/* ---- a check */

static uint32_t first_unruly(const uint8_t *list, uint32_t events)
{
    uint32_t i;
    for (i = 0; i < events; i++) {
        uint32_t tick = read_event(list, i).tick;
        if (tick > LAST_TICK || (i > 0 && tick <= read_event(list, i - 1).tick)) break;
    }
    return i;
}

static govahrin_answer follow(const struct job *job, const uint8_t *list, uint32_t *draw_ticks, uint8_t *draw_slots)
{
    struct display display;
    uint32_t events = two(list + 5), begun = 0;
    start(&display, job);
    while (display.next < job->draws) {
        uint32_t slot, place = display.next;
        land(&display, job);
        if (begun < events && read_event(list, begun).tick == display.tick) {
            uint32_t refusal = begin(&display, job, read_event(list, begun));
            if (refusal) return refused(refusal, begun);
            begun++;
        }
        slot = draw_or_wait(&display, job);
        if (slot < job->slots) {
            draw_ticks[place] = display.tick - 1;
            draw_slots[place] = (uint8_t)slot;
        } else if (!display.under_way && begun == events) {
            return refused(13, place);
        }
    }
    return begun < events ? refused(14, begun) : accepted(&display);
}

govahrin_answer plain_check(const uint8_t *job_bytes, size_t job_len, const uint8_t *list, size_t list_len,
                            uint32_t rounds, uint8_t *ticks, size_t ticks_len, uint8_t *slots, size_t slots_len)
{
    uint32_t draw_ticks[MOST_DRAWS], i;
    uint8_t draw_slots[MOST_DRAWS], row[2 * MOST_DRAWS];
    struct job job;
    govahrin_answer answer;
    uint32_t refusal = read_rounds(job_bytes, job_len, rounds, row, &job);
    if (refusal) return refused(refusal, 0);
    if (!list_is_right(list, list_len)) return refused(8, 0);
    if (ticks_len < 4 * (size_t)job.draws || slots_len < job.draws) return refused(7, 0);
    i = first_unruly(list, two(list + 5));
    if (i < two(list + 5)) return refused(9, i);
    answer = follow(&job, list, draw_ticks, draw_slots);
    if (answer.number == 0)
        for (i = 0; i < job.draws; i++) {
            put_four(ticks + 4 * i, draw_ticks[i]);
            slots[i] = draw_slots[i];
        }
    return answer;
}

/* ---- why a draw waited */

static govahrin_reason untold(uint32_t number, uint32_t detail)
{
    govahrin_reason reason = {number, detail, 0, 0, 0, 0, 0};
    return reason;
}

/* One more wait for a symbol, in the part that it belongs to. */
static void count_wait(govahrin_reason *reason, const struct display *display, uint32_t symbol)
{
    if (!display->under_way)
        reason->nothing++;
    else if (display->load.symbol == symbol)
        reason->own++;
    else
        reason->another++;
}

/* Goes along the whole list as a check does, and notes what happens to the draw's symbol as long as the draw is to come. */
static govahrin_reason explain(const struct job *job, const uint8_t *list, uint32_t draw)
{
    govahrin_reason reason = {0, 0, GOVAHRIN_FROM_THE_START, GOVAHRIN_NEVER_TAKEN, 0, 0, 0};
    struct display display;
    uint32_t events = two(list + 5), begun = 0, symbol = draw < job->draws ? draw_symbol(job, draw) : NOTHING;
    start(&display, job);
    while (display.next < job->draws) {
        const uint32_t place = display.next;
        const int loading = display.under_way;
        land(&display, job);
        if (loading && !display.under_way && display.load.symbol == symbol && place <= draw) reason.brought = begun - 1;
        if (begun < events && read_event(list, begun).tick == display.tick) {
            const struct event event = read_event(list, begun);
            const int takes = event.slot < job->slots && display.held[event.slot] == symbol;
            const uint32_t refusal = begin(&display, job, event);
            if (refusal) return untold(refusal, begun);
            if (takes && place <= draw) reason.taken = begun;
            begun++;
        }
        if (draw_or_wait(&display, job) < job->slots) continue;
        if (!display.under_way && begun == events) return untold(13, place);
        if (place == draw) count_wait(&reason, &display, symbol);
    }
    if (begun < events) return untold(14, begun);
    return draw < job->draws ? reason : untold(18, 0);
}

govahrin_reason plain_why(const uint8_t *job_bytes, size_t job_len, const uint8_t *list, size_t list_len, uint32_t draw,
                          uint32_t rounds)
{
    uint8_t row[2 * MOST_DRAWS];
    struct job job;
    uint32_t unruly, refusal = read_rounds(job_bytes, job_len, rounds, row, &job);
    if (refusal) return untold(refusal, 0);
    if (!list_is_right(list, list_len)) return untold(8, 0);
    unruly = first_unruly(list, two(list + 5));
    if (unruly < two(list + 5)) return untold(9, unruly);
    return explain(&job, list, draw);
}

/* ---- the four plans */

/* The first place of a symbol at or after the next draw number, or the number of draws. */
static uint32_t next_draw(const struct display *display, const struct job *job, uint32_t symbol)
{
    uint32_t place = display->next;
    while (place < job->draws && draw_symbol(job, place) != symbol) place++;
    return place;
}

/* How many draws ago a symbol was drawn, or more than all draws made. */
static uint32_t age(const struct display *display, const struct job *job, uint32_t symbol)
{
    uint32_t ago = 0;
    while (ago < display->next && draw_symbol(job, display->next - 1 - ago) != symbol) ago++;
    return ago;
}

/* How far off a symbol is for opt: its next draw, or, where it is never drawn again, beyond all draws by its age. */
static uint32_t next_draw_or_age(const struct display *display, const struct job *job, uint32_t symbol)
{
    uint32_t place = next_draw(display, job, symbol);
    return place < job->draws ? place : job->draws + age(display, job, symbol);
}

/* The lowest free slot, or the number of slots. */
static uint32_t free_slot(const struct display *display, const struct job *job)
{
    return slot_of(display, job, NOTHING);
}

static uint32_t free_or_greatest(const struct display *display, const struct job *job,
                                 uint32_t (*rank)(const struct display *, const struct job *, uint32_t))
{
    uint32_t slot, best = 0, greatest = 0;
    if (free_slot(display, job) < job->slots) return free_slot(display, job);
    for (slot = 0; slot < job->slots; slot++) {
        uint32_t here = rank(display, job, display->held[slot]);
        if (slot == 0 || here > greatest) {
            best = slot;
            greatest = here;
        }
    }
    return best;
}

/* Each rule answers whether a load begins in this tick, and which; it is asked when no load is under way. */
static int aggressive(const struct display *display, const struct job *job, struct event *load)
{
    uint32_t miss = display->next;
    while (miss < job->draws && slot_of(display, job, draw_symbol(job, miss)) < job->slots) miss++;
    if (miss == job->draws) return 0;
    load->slot = free_or_greatest(display, job, next_draw);
    load->symbol = draw_symbol(job, miss);
    return display->held[load->slot] == NOTHING || next_draw(display, job, display->held[load->slot]) >= miss;
}

static int on_demand(const struct display *display, const struct job *job, struct event *load,
                     uint32_t (*rank)(const struct display *, const struct job *, uint32_t))
{
    load->symbol = draw_symbol(job, display->next);
    if (slot_of(display, job, load->symbol) < job->slots) return 0;
    load->slot = free_or_greatest(display, job, rank);
    return 1;
}

/* The loads of opt in their order: with each, the draw that it was made for. */
struct order {
    uint32_t count, begun;
    uint32_t miss[MOST_DRAWS];
    struct event load[MOST_DRAWS];
};

static int conservative(const struct display *display, const struct job *job, struct order *order, struct event *load)
{
    uint32_t symbol, place;
    if (order->begun == order->count) return 0;
    *load = order->load[order->begun];
    symbol = display->held[load->slot];
    for (place = display->next; place < order->miss[order->begun]; place++)
        if (draw_symbol(job, place) == symbol) return 0;
    order->begun++;
    return 1;
}

static int wants(uint32_t plan, const struct display *display, const struct job *job, struct order *order,
                 struct event *load)
{
    switch (plan) {
    case 0: return aggressive(display, job, load);
    case 1: return conservative(display, job, order, load);
    case 2: return on_demand(display, job, load, next_draw_or_age);
    default: return on_demand(display, job, load, age);
    }
}

/* Runs the display under a plan and writes the loads that it begins, with the draw each was made for, to made. */
static govahrin_answer run(uint32_t plan, const struct job *job, struct order *order, struct order *made)
{
    struct display display;
    struct event load;
    start(&display, job);
    while (display.next < job->draws) {
        if (display.tick == LAST_TICK) return refused(15, 0);
        land(&display, job);
        if (!display.under_way && wants(plan, &display, job, order, &load)) {
            load.tick = display.tick;
            made->miss[display.loads] = display.next;
            made->load[display.loads] = load;
            begin(&display, job, load);
        }
        draw_or_wait(&display, job);
    }
    made->count = display.loads;
    made->begun = 0;
    return accepted(&display);
}

govahrin_answer plain_plan(const uint8_t *job_bytes, size_t job_len, uint32_t plan, uint32_t rounds, uint8_t *room,
                           size_t room_len)
{
    struct order opts, made;
    uint8_t row[2 * MOST_DRAWS];
    struct job job;
    govahrin_answer answer;
    uint32_t i, refusal = read_rounds(job_bytes, job_len, rounds, row, &job);
    if (refusal) return refused(refusal, 0);
    if (plan > 3) return refused(6, 0);
    if (room_len < 7 + 7 * (size_t)job.draws) return refused(7, 0);
    opts.count = opts.begun = 0;
    if (plan == 1) run(2, &job, 0, &opts);
    answer = run(plan, &job, &opts, &made);
    if (answer.number) return answer;
    write_head(room, made.count);
    for (i = 0; i < made.count; i++) write_event(room, i, made.load[i]);
    return answer;
}

/* ---- a list as text */

static govahrin_written not_written(uint32_t number, uint32_t detail)
{
    govahrin_written answer = {number, detail, 0};
    return answer;
}

static govahrin_written written(size_t size)
{
    govahrin_written answer = {0, 0, (uint32_t)size};
    return answer;
}

static uint32_t digits_of(uint32_t number)
{
    uint32_t digits = 1;
    for (; number >= 10; number /= 10) digits++;
    return digits;
}

static size_t line_size(struct event event)
{
    return digits_of(event.tick) + 1 + digits_of(event.slot) + 1 + digits_of(event.symbol) + 1;
}

/* A number and the byte after it; answers the place after both. */
static uint8_t *put_field(uint8_t *at, uint32_t number, uint8_t stop)
{
    uint32_t i, digits = digits_of(number);
    for (i = digits; i > 0; i--, number /= 10) at[i - 1] = (uint8_t)('0' + number % 10);
    at[digits] = stop;
    return at + digits + 1;
}

govahrin_written plain_write_text(const uint8_t *list, size_t list_len, uint8_t *text, size_t text_len)
{
    uint32_t i, events;
    size_t size = 0;
    if (!list_is_right(list, list_len)) return not_written(8, 0);
    events = two(list + 5);
    i = first_unruly(list, events);
    if (i < events) return not_written(9, i);
    for (i = 0; i < events; i++) size += line_size(read_event(list, i));
    if (text_len < size) return not_written(7, 0);
    for (i = 0; i < events; i++) {
        struct event event = read_event(list, i);
        text = put_field(text, event.tick, ' ');
        text = put_field(text, event.slot, ' ');
        text = put_field(text, event.symbol, '\n');
    }
    return written(size);
}

/* A text and the place up to which it is read. */
struct reader {
    const uint8_t *text;
    size_t length, at;
};

/* Reads a number and the byte after it; answers whether both are in the shape. A number over most is read as most + 1. */
static int read_field(struct reader *reader, uint8_t stop, uint32_t most, uint32_t *number)
{
    const size_t first = reader->at;
    size_t at = first;
    uint32_t sum = 0;
    while (at < reader->length && reader->text[at] >= '0' && reader->text[at] <= '9') {
        sum = 10 * sum + (uint32_t)(reader->text[at] - '0');
        if (sum > most) sum = most + 1;
        at++;
    }
    if (at == first || (reader->text[first] == '0' && at > first + 1)) return 0;
    if (at == reader->length || reader->text[at] != stop) return 0;
    *number = sum;
    reader->at = at + 1;
    return 1;
}

static int read_line(struct reader *reader, struct event *event)
{
    if (!read_field(reader, ' ', LAST_TICK, &event->tick)) return 0;
    if (!read_field(reader, ' ', LAST_SLOT, &event->slot) || event->slot > LAST_SLOT) return 0;
    return read_field(reader, '\n', LAST_SYMBOL, &event->symbol) && event->symbol <= LAST_SYMBOL;
}

govahrin_written plain_read_text(const uint8_t *text, size_t text_len, uint8_t *list, size_t list_len)
{
    struct event events[MOST_EVENTS];
    struct reader reader = {text, text_len, 0};
    uint32_t i, lines = 0;
    for (; reader.at < text_len; lines++)
        if (lines == MOST_EVENTS || !read_line(&reader, &events[lines])) return not_written(16, lines);
    for (i = 0; i < lines; i++)
        if (events[i].tick > LAST_TICK || (i > 0 && events[i].tick <= events[i - 1].tick)) return not_written(9, i);
    if (list_len < 7 + 7 * (size_t)lines) return not_written(7, 0);
    write_head(list, lines);
    for (i = 0; i < lines; i++) write_event(list, i, events[i]);
    return written(7 + 7 * (size_t)lines);
}
