/* Govahrin for C and C++: plan the symbol loads of a bridge display, check a load list before a display trusts it, tell
   why a draw waited, and write and read a load list as text.
   This header is the manual; `man 3 govahrin` has the calls in short.

   A display holds chart symbols in k slots. Any other symbol comes off a slow card and takes F ticks to load into a
   slot. A job says what is drawn, in which order; a load list says at which tick which symbol goes into which slot. The
   display follows the list and never looks at the symbol, so a list that is wrong by one tick draws a wrong symbol.

   LINKING. The archive libgovahrin.a is for x86-64 and needs nothing but memcpy and memset. Where it is installed:

       cc host.c $(pkg-config --cflags --libs govahrin)

   or -lgovahrin. In the source tree `tools/install PREFIX` installs it, and `tools/machine archive` makes it as
   target/staticlib/libgovahrin.a.

   THE JOB. Numbers are big-endian.

       offset  bytes  what
       0       4      length: the count of all bytes after it, 6 + 2k + 2n
       4       1      version, 1
       5       1      slots k, 1 to 64
       6       2      load time F in ticks, 1 to 1,000
       8       2      draws n, 0 to 4,096
       10      2k     what each slot holds at the start: a symbol, 0 to 65534, or 65535 for a free slot
       10+2k   2n     the symbols drawn, in order

   THE LOAD LIST.

       offset  bytes  what
       0       4      length: the count of all bytes after it, 3 + 7m
       4       1      version, 1
       5       2      events m, 0 to 4,096
       7       7m     the events: tick (4 bytes, 0 to 8,388,607, rising strictly), slot (1), symbol (2)

   THE TEXT. A load list that people can read, one event a line: tick, slot and symbol in decimal, one blank (byte 32)
   between them and a line feed (byte 10) after each line. No leading zeros, no sign, nothing else; a last line has its
   line feed too. At most 4,096 lines, a slot at most 255, a symbol at most 65535. The list with no event is the text
   with no byte. A list and its text have the same events: what was written reads back as the same bytes, and what was
   read writes back as the same text. The text of two events:

       2 1 3
       7 1 2

   ROUNDS. On a rolling display the sheet is drawn again from its first symbol. A plan, a check and the question why a
   draw waited are asked for a number of rounds r: the draws are the n draws of the job r times over, and one load list
   covers them all. There is at least one round, and at most 4,096 draws in all of them, r * n; a job with no draws may be
   drawn any number of times. Draws count from 0 through the rounds: draw n is the first of the second round. Ticks go on
   from round to round, and the slots hold what they held. A symbol that is drawn again in a later round has its next draw
   there.

   ONE TICK, while draws remain. First a load begun F ticks ago puts its symbol into its slot. Then, if the next event
   has this tick, its load begins: what the slot held is gone at once. Then, if some slot holds the next draw's symbol,
   it is drawn from there; if not, this tick is a wait. A wait has one of three causes: the symbol that is waited for is
   being loaded, another one is, or nothing is. A load that begins in the tick counts.

   AN EXAMPLE. Two slots with symbols 1 and 2, load time 4, draws 1 2 3 1, once. It prints `8 ticks, 4 of them waits`.

       #include <govahrin.h>
       #include <stdio.h>

       int main(void)
       {
           static const uint8_t job[] = {0, 0, 0, 18, 1, 2, 0, 4, 0, 4, 0, 1, 0, 2, 0, 1, 0, 2, 0, 3, 0, 1};
           uint8_t list[GOVAHRIN_PLAN_ROOM(4)];
           govahrin_answer a = govahrin_plan(job, sizeof job, GOVAHRIN_CONSERVATIVE, 1, list, sizeof list);
           if (a.number) {
               printf("refused %u %u: %s\n", (unsigned)a.number, (unsigned)a.detail, govahrin_words(a.number));
               return 1;
           }
           printf("%u ticks, %u of them waits\n", (unsigned)a.elapsed, (unsigned)a.waits);
           return 0;
       }

   examples/host.c is a whole host: it plans two rounds, checks, and steps a display tick by tick. examples/why.c tells
   why the draws of such a list waited.

   MEMORY. The library has no state, allocates nothing and keeps no pointer. It asks nothing of the bytes that it is
   lent: any content, any alignment, any length, and a null pointer where the length is 0. Three things it cannot see,
   and there it trusts its caller:
   - a length is no more than the memory at its pointer: the library believes it, and reads or writes that far;
   - memory that a call may write overlaps nothing else that the call is given;
   - the stack has room for the call: GOVAHRIN_PLAN_STACK, GOVAHRIN_CHECK_STACK, GOVAHRIN_WHY_STACK or
     GOVAHRIN_TEXT_STACK bytes.
   To tell why a draw waited nothing is lent but the job and the list, which are only read; they may overlap.
   Measured, and not promised: where memory overlaps, the answer of a plan, of a check and of a text that is read is still
   right, and one result lies over the other; a text that is written over its own list need not be the text of that list.
   Where the stack is too small, a system that guards its end stops the process, and there is no answer.
   A govahrin_answer, a govahrin_reason and a govahrin_written are returned by value and are aligned as uint32_t is.

   THREADS. Any number of threads may call at once, each with its own lent memory. A call blocks on nothing and calls
   nothing of the host's but memcpy and memset.

   TIME. Measured, and not promised: a tick of a check takes as long whichever slot its draw comes from, since every
   search for a symbol looks at all slots. A wait in the tick before a load ends takes as long as a draw; waits in a row,
   in which nothing else can come up, are passed over at once. */
#ifndef GOVAHRIN_H
#define GOVAHRIN_H

#include <stddef.h>
#include <stdint.h>

/* The version of the library and of this header. Until 1.0 the surface changes with the requests. */
#define GOVAHRIN_VERSION_MAJOR 0
#define GOVAHRIN_VERSION_MINOR 5
#define GOVAHRIN_VERSION_PATCH 0
#define GOVAHRIN_VERSION "0.5.0"

#ifdef __cplusplus
extern "C" {
#endif

/* What a plan and a check answer. Accepted: number 0, detail 0 and the run's counts. Refused: the refusal's number and
   detail, the counts 0, and every lent byte as it was before the call. */
typedef struct {
    uint32_t number;  /* 0, or why the call was refused: see the refusals below */
    uint32_t detail;  /* the event or the draw that a refusal names, counted from 0 and through the rounds; else 0 */
    uint32_t elapsed; /* ticks until all draws are done; always r * n + waits */
    uint32_t waits;   /* ticks in which nothing was drawn */
    uint32_t loads;   /* loads begun; one may still be under way at the end */
    uint32_t longest; /* the longest single wait: the most waits between a draw and the draw before it, or the start */
} govahrin_answer;

/* What is told of one draw of an accepted list. Accepted: number 0, detail 0 and the five numbers. Refused: the refusal's
   number and detail, and the five numbers 0. The three parts add to the waits between the draw before this one, or the
   start, and this draw. */
typedef struct {
    uint32_t number;  /* 0, or why the call was refused: see the refusals below */
    uint32_t detail;  /* the event or the draw that a refusal names, counted from 0 and through the rounds; else 0 */
    uint32_t brought; /* the event that last brought the draw's symbol into a slot before the draw, counted from 0; or
                         GOVAHRIN_FROM_THE_START: it was in a slot from the start */
    uint32_t taken;   /* the event that last took the symbol out of a slot before the draw, over all draws before it; or
                         GOVAHRIN_NEVER_TAKEN */
    uint32_t own;     /* waits while the draw's own symbol was loading */
    uint32_t another; /* waits while another symbol was loading */
    uint32_t nothing; /* waits while nothing was loading */
} govahrin_reason;

/* What stands in a govahrin_reason where there is no event: no event brought the symbol, and no event took it out. Both
   are greater than any event's number. */
#define GOVAHRIN_FROM_THE_START 4294967295u
#define GOVAHRIN_NEVER_TAKEN 4294967295u

/* What the writer and the reader of texts answer. Accepted: number 0, detail 0 and the bytes written. Refused: the
   refusal's number and detail, size 0, and every lent byte as it was before the call. */
typedef struct {
    uint32_t number; /* 0, or why the call was refused: see the refusals below */
    uint32_t detail; /* the event or the line that a refusal names, counted from 0; else 0 */
    uint32_t size;   /* bytes written, from the first byte of the lent room on; 0 on a refusal */
} govahrin_written;

/* The refusals. The first that applies is given: for a plan in the order 1 to 5, 17, 6, 7, 15; for a check 1 to 5, 17, 8,
   7, 9, then 10 to 14 as time meets them, and 10, 11, 12 for one event; for why a draw waited all of a check but 7, then
   18; for the writer of a text 8, 9, 7; for the reader 16, 9, 7. Detail is 0 unless said otherwise. */
enum {
    GOVAHRIN_ACCEPTED = 0,
    GOVAHRIN_JOB_LENGTH = 1,     /* the job has under 10 bytes, or its length is not the count of the bytes after it */
    GOVAHRIN_JOB_VERSION = 2,    /* the job's version is not 1 */
    GOVAHRIN_JOB_LIMITS = 3,     /* k, F or n is outside its limits */
    GOVAHRIN_JOB_SIZE_WRONG = 4, /* the job's length is not 6 + 2k + 2n */
    GOVAHRIN_JOB_SYMBOLS = 5,    /* a symbol is in two starting slots, or 65535 is drawn */
    GOVAHRIN_PLAN_NUMBER = 6,    /* the plan number is above 3 */
    GOVAHRIN_ROOM = 7,           /* lent room is too short */
    GOVAHRIN_LIST_BYTES = 8,     /* the list has under 7 bytes, a wrong length or version, or more than 4,096 events */
    GOVAHRIN_EVENT_TICK = 9,     /* an event's tick is over 8,388,607 or not above the one before; detail: the first */
    GOVAHRIN_EVENT_BUSY = 10,    /* an event begins while a load is under way; detail: the event */
    GOVAHRIN_EVENT_SLOT = 11,    /* an event's slot is k or more; detail: the event */
    GOVAHRIN_EVENT_SYMBOL = 12,  /* an event's symbol is held by a slot, or is 65535; detail: the event */
    GOVAHRIN_DRAW_NEVER = 13,    /* a draw's symbol is in no slot, no load under way, no event left; detail: the draw */
    GOVAHRIN_EVENT_LEFT = 14,    /* all draws are done and an event is left; detail: the first left */
    GOVAHRIN_PLAN_TOO_LONG = 15, /* a plan's elapsed would pass 8,388,607; no job within the limits is so long */
    GOVAHRIN_TEXT_LINE = 16,     /* a line is outside the shape, its slot over 255 or its symbol over 65535, or it is the
                                    4,097th; detail: the first such line */
    GOVAHRIN_ROUNDS_NUMBER = 17, /* the number of rounds is 0, or all rounds together, r * n, have more than 4,096 draws */
    GOVAHRIN_DRAW_NUMBER = 18    /* the draw number is not below the number of draws in all rounds, r * n */
};

/* A refusal's number in words, a line without its end. Where they say "an event", "a draw" or "a line", detail is which
   one. */
static inline const char *govahrin_words(uint32_t number)
{
    static const char *const words[] = {
        "accepted",
        "the job has under 10 bytes, or its length is not the count of the bytes after it",
        "the job's version is not 1",
        "the job has not 1 to 64 slots, a load time of 1 to 1,000 and 0 to 4,096 draws",
        "the job's length does not fit its numbers of slots and draws",
        "a symbol stands in two starting slots, or 65535, the mark of a free slot, is drawn",
        "there are four plans, 0 to 3",
        "the lent room is too short",
        "the list's length, version or number of events is wrong",
        "an event has a tick over 8,388,607 or not above the one before",
        "an event begins while a load is under way",
        "an event names a slot that the display does not have",
        "an event loads a symbol that a slot holds, or 65535",
        "a draw would wait for ever: its symbol is in no slot, no load is under way and no event is left",
        "an event is left when all draws are done",
        "the plan would take more than 8,388,607 ticks",
        ("a line is not tick, slot and symbol in decimal with one blank between and a line feed, "
         "or its slot is over 255, its symbol over 65535, or it is one line too many"),
        "the number of rounds is 0, or all rounds together have more than 4,096 draws",
        "the draw number is not below the number of draws in all rounds",
    };
    return number < sizeof words / sizeof words[0] ? words[number] : "no refusal has this number";
}

/* The plans. */
enum {
    GOVAHRIN_AGGRESSIVE = 0,   /* loads the first missing symbol as soon as that costs no earlier draw its symbol */
    GOVAHRIN_CONSERVATIVE = 1, /* the loads of opt, each as early as can be: no accepted list has fewer loads, and none
                                  has less than half its elapsed */
    GOVAHRIN_OPT = 2,          /* loads on demand, in place of the symbol whose next draw is furthest; of several that are
                                  never drawn again it is the one whose last draw so far is earliest, one not yet drawn
                                  before all. (Aggressive takes the one in the lowest slot.) */
    GOVAHRIN_LRU = 3           /* loads on demand, in place of the symbol drawn longest ago */
};

/* Sizes in bytes, for k slots, n draws in a job, d draws in all rounds (r * n) and m events. A line of a text has
   7 + 1 + 3 + 1 + 5 + 1 bytes at most. */
#define GOVAHRIN_JOB_SIZE(k, n) (10 + 2 * (size_t)(k) + 2 * (size_t)(n))
#define GOVAHRIN_LIST_SIZE(m) (7 + 7 * (size_t)(m))
#define GOVAHRIN_PLAN_ROOM(d) (7 + 7 * (size_t)(d))
#define GOVAHRIN_TICKS_ROOM(d) (4 * (size_t)(d))
#define GOVAHRIN_SLOTS_ROOM(d) ((size_t)(d))
#define GOVAHRIN_TEXT_ROOM(m) (18 * (size_t)(m))

/* The most draws are those of a job, and of all rounds together. */
#define GOVAHRIN_MOST_SLOTS 64
#define GOVAHRIN_MOST_LOAD_TIME 1000
#define GOVAHRIN_MOST_DRAWS 4096
#define GOVAHRIN_MOST_EVENTS 4096
#define GOVAHRIN_LAST_TICK 8388607
#define GOVAHRIN_FREE 65535

/* The most stack that a plan, a check, the question why a draw waited, and the writer or the reader of a text take in the
   x86-64 archive, in bytes: upper bounds, measured by tests/stack_run on the largest inputs. They include some 3,000
   bytes for a dynamic loader that looks up memset or memcpy during the call. */
#define GOVAHRIN_PLAN_STACK 54272
#define GOVAHRIN_CHECK_STACK 41984
#define GOVAHRIN_WHY_STACK 5120
#define GOVAHRIN_TEXT_STACK 32768

/* Plans some rounds of a job by one of the four plans.
   job, job_len    the job's bytes; only read
   plan            GOVAHRIN_AGGRESSIVE, GOVAHRIN_CONSERVATIVE, GOVAHRIN_OPT or GOVAHRIN_LRU
   rounds          how often the sheet is drawn, r; 1 for a sheet that is not redrawn
   room, room_len  lent room of at least GOVAHRIN_PLAN_ROOM(r * n) bytes
   Accepted: the load list of all rounds is in room from its first byte and has GOVAHRIN_LIST_SIZE(loads) bytes; the bytes
   after it are as they were. The counts are those that a check of the list, for as many rounds, answers. Refusals 1 to 7,
   15 and 17. */
govahrin_answer govahrin_plan(const uint8_t *job, size_t job_len, uint32_t plan, uint32_t rounds, uint8_t *room,
                              size_t room_len);

/* Checks a load list against some rounds of a job: whoever made the list, every draw finds its symbol in a slot, or it is
   refused.
   job, job_len      the job's bytes; only read
   list, list_len    the list's bytes; only read
   rounds            how often the sheet is drawn, r; 1 for a sheet that is not redrawn
   ticks, ticks_len  lent room of at least GOVAHRIN_TICKS_ROOM(r * n) bytes
   slots, slots_len  lent room of at least GOVAHRIN_SLOTS_ROOM(r * n) bytes
   Accepted: ticks has for each draw of all rounds its tick, 4 big-endian bytes each, and slots the slot it is drawn from,
   a byte each; the bytes after them are as they were. Refusals 1 to 5, 7 to 14 and 17. */
govahrin_answer govahrin_check(const uint8_t *job, size_t job_len, const uint8_t *list, size_t list_len,
                               uint32_t rounds, uint8_t *ticks, size_t ticks_len, uint8_t *slots, size_t slots_len);

/* Tells why a draw waited: which event brought its symbol, which took it out before, and what was loading meanwhile.
   job, job_len    the job's bytes; only read
   list, list_len  the list's bytes; only read
   draw            the draw, counted from 0 and through the rounds, so below r * n
   rounds          how often the sheet is drawn, r; as in the check of the list
   Accepted: the list is one that a check accepts, and the answer tells of the draw. An event whose load ends in the
   draw's own tick has brought its symbol before the draw. A draw that did not wait has three parts of 0, and its events
   all the same. No room is lent. Refusals 1 to 5, 8 to 14 and 17, also where what is wrong comes after the draw, then 18.
   After a plan into room:

       govahrin_reason w = govahrin_why(job, job_len, room, GOVAHRIN_LIST_SIZE(a.loads), draw, rounds);
       if (w.number == 0 && w.brought != GOVAHRIN_FROM_THE_START) printf("event %u brought it\n", (unsigned)w.brought); */
govahrin_reason govahrin_why(const uint8_t *job, size_t job_len, const uint8_t *list, size_t list_len, uint32_t draw,
                             uint32_t rounds);

/* Writes a load list as text.
   list, list_len  the list's bytes; only read
   text, text_len  lent room for the text; GOVAHRIN_TEXT_ROOM(m) bytes are always enough, and as many as the text has do
   Accepted: the text is in text from its first byte and has size bytes; the bytes after it are as they were, so no zero
   byte ends it. Refusals 8, then 9, then 7 where the room is shorter than the text. No job is asked for: a list that is
   written need not suit one. After a plan into room, with m loads at most:

       uint8_t text[GOVAHRIN_TEXT_ROOM(m)];
       govahrin_written w = govahrin_write_text(room, GOVAHRIN_LIST_SIZE(a.loads), text, sizeof text);
       if (w.number == 0) fwrite(text, 1, w.size, stdout); */
govahrin_written govahrin_write_text(const uint8_t *list, size_t list_len, uint8_t *text, size_t text_len);

/* Reads a text as a load list, whatever its bytes are.
   text, text_len  the text's bytes; only read. It ends with its length: a zero byte is a byte like others, and outside
                   the shape
   list, list_len  lent room for the list: GOVAHRIN_LIST_SIZE(m) bytes for a text of m lines
   Accepted: the list is in list from its first byte and has size bytes; the bytes after it are as they were. Refusals 16
   over the whole text, then 9 over all its events, then 7 where the room is shorter than the list. A tick may have any
   number of digits, and meets 9 where it is over the limit; a slot or a symbol over its limit meets 16. A list that was
   read is not checked: whether it suits a job govahrin_check says. */
govahrin_written govahrin_read_text(const uint8_t *text, size_t text_len, uint8_t *list, size_t list_len);

#ifdef __cplusplus
}
#endif

#endif
