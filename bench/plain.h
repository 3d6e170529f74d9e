/* The plain C program of the benchmark, with the same shapes as include/govahrin.h under other names, so that both can
   be linked into one program. Of what is answered nothing differs; only the proof is missing. */
#ifndef PLAIN_H
#define PLAIN_H

#include "../include/govahrin.h"

govahrin_answer plain_plan(const uint8_t *job, size_t job_len, uint32_t plan, uint32_t rounds, uint8_t *room,
                           size_t room_len);
govahrin_answer plain_check(const uint8_t *job, size_t job_len, const uint8_t *list, size_t list_len, uint32_t rounds,
                            uint8_t *ticks, size_t ticks_len, uint8_t *slots, size_t slots_len);
govahrin_reason plain_why(const uint8_t *job, size_t job_len, const uint8_t *list, size_t list_len, uint32_t draw,
                          uint32_t rounds);
govahrin_written plain_write_text(const uint8_t *list, size_t list_len, uint8_t *text, size_t text_len);
govahrin_written plain_read_text(const uint8_t *text, size_t text_len, uint8_t *list, size_t list_len);

#endif
