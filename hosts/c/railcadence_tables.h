/* NAME
 *     railcadence_tables - tables that keep their plans and columns together
 *
 * SYNOPSIS
 *     #include "railcadence_tables.h"
 *     gcc -std=c11 -o program program.c librailcadence_c.a
 *
 *     railcadence_gcra_bytes            railcadence_token_bucket_bytes
 *     railcadence_gcra_init             railcadence_token_bucket_init
 *     railcadence_gcra_ask              railcadence_token_bucket_ask
 *     railcadence_gcra_look             railcadence_token_bucket_look
 *     railcadence_gcra_wipe             railcadence_token_bucket_wipe
 *     railcadence_text                  railcadence_may_retry
 *
 * DESCRIPTION
 *     The calls of railcadence.h with fewer arguments: an ask is its acquire, a look its peek, a
 *     wipe its clear. That file says what is asked and answered, and of plans and threads; its
 *     calls are proved. What is here is plain C over them, and C++11 too: it is tested, not proved.
 *
 * MEMORY
 *     A table's columns lie in one block of memory that the caller owns and that nothing else may
 *     use meanwhile: .._bytes(slots) bytes of it, aligned as a uint64_t. What malloc gives will do,
 *     and so will an array of 2 * slots uint64_t for GCRA, of 3 * slots for the token bucket. The
 *     plans stay the caller's too, and must remain as they are. Nothing is allocated or freed, and
 *     nothing need be done with a table at its end. A table must not be copied in use: the copy
 *     would share its columns, and not its newest moment.
 *
 *     The fields of a table may be read. plans and plan_count may be set, to a longer list that
 *     begins with the same plans.
 */
#ifndef RAILCADENCE_TABLES_H
#define RAILCADENCE_TABLES_H

#include "railcadence.h"

/* The five numbers of an answer. */
struct railcadence_answer {
    uint64_t number, subscriber, left, reset, wait;
};

struct railcadence_gcra {
    const struct railcadence_plan *plans;
    size_t plan_count, slots;
    uint32_t *ids;
    uint8_t *plan_numbers;
    uint64_t *tats;
    uint64_t newest;
};

struct railcadence_token_bucket {
    const struct railcadence_plan *plans;
    size_t plan_count, slots;
    uint32_t *ids;
    uint8_t *plan_numbers;
    uint64_t *levels, *lasts;
    uint64_t newest;
};

/* What a number means, and what to do where that helps: a line without its end, for any number. */
static inline const char *railcadence_text(uint64_t number)
{
    switch (number) {
    case RAILCADENCE_ADMITTED: return "done: admitted, reported or cleared";
    case RAILCADENCE_BAD_PLAN: return "the plans are none, more than 16 or not all within their "
                                      "limits, or the plan asked for is not among them";
    case RAILCADENCE_BAD_TABLE: return "the columns differ in length, or there are not 1 to 65535 "
                                       "slots: make the table anew";
    case RAILCADENCE_LATE_MOMENT: return "the moment is above 4398046511103: pass milliseconds, "
                                         "and count them from a later zero";
    case RAILCADENCE_NO_SUBSCRIBER: return "subscriber 0 is nobody: number subscribers from 1";
    case RAILCADENCE_ZERO_COST: return "the cost is 0: ask for 1 unit or more, or look";
    case RAILCADENCE_COST_ABOVE_BURST: return "the cost is above the plan's burst and never "
                                              "admitted: ask for less at once";
    case RAILCADENCE_CORRUPT_RECORD: return "the subscriber's record is impossible: the table is "
                                            "damaged or other plans are lent: clear the table";
    case RAILCADENCE_THROTTLED: return "not now: try again after the wait";
    case RAILCADENCE_TABLE_FULL: return "no slot is the subscriber's own and none is free: try "
                                        "again later, or make the table larger";
    case 10: return "in a text alone: the line cannot be read";
    case RAILCADENCE_EARLY_MOMENT: return "the moment is before the newest admission: set the "
                                          "clock right, and use one clock for a table";
    case RAILCADENCE_OTHER_PLAN: return "the subscriber still owes under another plan: ask under "
                                        "that one, or again when nothing is owed";
    case RAILCADENCE_NOT_ON_CLOCK: return "no moment up to 4398046511103 will admit the request: "
                                          "ask for less at once, or clear the table and count "
                                          "moments from a later zero";
    default: return "a number that this header does not know: take the one that goes with the "
                    "archive";
    }
}

/* What the functions below share. */

/* how many numbers the plans are; too many plans count as none, which is refused */
static inline size_t railcadence_plans_len(const struct railcadence_plan *plans, size_t plan_count)
{
    return plans != NULL && plan_count <= RAILCADENCE_MOST_PLANS ? 3 * plan_count : 0;
}

/* so many slots of so many bytes; 0 if there is no such table */
static inline size_t railcadence_table_bytes(size_t slots, size_t slot_bytes)
{
    return slots <= RAILCADENCE_MOST_SLOTS ? slots * slot_bytes : 0;
}

static inline bool railcadence_has_room(const void *memory, size_t bytes, size_t needed)
{
    return memory != NULL && needed != 0 && bytes >= needed &&
           (uintptr_t)memory % sizeof(uint64_t) == 0;
}

static inline struct railcadence_answer railcadence_answer_of(const uint64_t *out)
{
    struct railcadence_answer answer;
    answer.number = out[RAILCADENCE_NUMBER];
    answer.subscriber = out[RAILCADENCE_SUBSCRIBER];
    answer.left = out[RAILCADENCE_LEFT];
    answer.reset = out[RAILCADENCE_RESET];
    answer.wait = out[RAILCADENCE_WAIT];
    return answer;
}

/* A table of the GCRA engine. */

/* How many bytes a table of so many slots takes: 13 a slot. 0 if slots is not 1 to 65535. */
static inline size_t railcadence_gcra_bytes(size_t slots)
{
    return railcadence_table_bytes(slots, sizeof(uint64_t) + sizeof(uint32_t) + sizeof(uint8_t));
}

/* Decides on a request, and spends its cost if it is admitted. */
static inline struct railcadence_answer railcadence_gcra_ask(struct railcadence_gcra *table,
                                                             uint64_t moment, uint32_t subscriber,
                                                             uint32_t plan, uint32_t cost)
{
    uint64_t out[RAILCADENCE_NUMBERS];
    railcadence_gcra_acquire((const uint32_t *)table->plans,
                             railcadence_plans_len(table->plans, table->plan_count),
                             table->ids, table->slots, table->plan_numbers, table->slots,
                             table->tats, table->slots, &table->newest,
                             moment, subscriber, plan, cost, out);
    return railcadence_answer_of(out);
}

/* Reports what a subscriber has left under a plan, and spends nothing. */
static inline struct railcadence_answer railcadence_gcra_look(const struct railcadence_gcra *table,
                                                              uint64_t moment, uint32_t subscriber,
                                                              uint32_t plan)
{
    uint64_t out[RAILCADENCE_NUMBERS];
    railcadence_gcra_peek((const uint32_t *)table->plans,
                          railcadence_plans_len(table->plans, table->plan_count),
                          table->ids, table->slots, table->plan_numbers, table->slots,
                          table->tats, table->slots, &table->newest,
                          moment, subscriber, plan, out);
    return railcadence_answer_of(out);
}

/* Makes the table empty. */
static inline struct railcadence_answer railcadence_gcra_wipe(struct railcadence_gcra *table)
{
    uint64_t out[RAILCADENCE_NUMBERS];
    railcadence_gcra_clear(table->ids, table->slots, table->plan_numbers, table->slots,
                           table->tats, table->slots, &table->newest, out);
    return railcadence_answer_of(out);
}

/* Makes an empty table in the memory, of which it takes the first railcadence_gcra_bytes(slots),
 * under these plans. If it is false, nothing is written in the memory, and every ask and look of
 * the table gets 1 if the plans are none, more than 16 or not all within their limits; otherwise
 * 2, since slots is not 1 to 65535, or the memory is NULL, too small or not aligned. */
static inline bool railcadence_gcra_init(struct railcadence_gcra *table, void *memory, size_t bytes,
                                         size_t slots, const struct railcadence_plan *plans,
                                         size_t plan_count)
{
    table->plans = plans;
    table->plan_count = plan_count;
    table->slots = 0;
    table->ids = NULL;
    table->plan_numbers = NULL;
    table->tats = NULL;
    table->newest = 0;
    if (!railcadence_has_room(memory, bytes, railcadence_gcra_bytes(slots)) ||
        railcadence_gcra_look(table, 0, 1, 0).number == RAILCADENCE_BAD_PLAN)
        return false;
    table->slots = slots;
    table->tats = (uint64_t *)memory;
    table->ids = (uint32_t *)(void *)(table->tats + slots);
    table->plan_numbers = (uint8_t *)(table->ids + slots);
    return railcadence_gcra_wipe(table).number == RAILCADENCE_CLEARED;
}

/* A table of the token bucket engine, with the same functions. */

/* 21 bytes a slot. */
static inline size_t railcadence_token_bucket_bytes(size_t slots)
{
    return railcadence_table_bytes(slots,
                                   2 * sizeof(uint64_t) + sizeof(uint32_t) + sizeof(uint8_t));
}

static inline struct railcadence_answer
railcadence_token_bucket_ask(struct railcadence_token_bucket *table, uint64_t moment,
                             uint32_t subscriber, uint32_t plan, uint32_t cost)
{
    uint64_t out[RAILCADENCE_NUMBERS];
    railcadence_token_bucket_acquire((const uint32_t *)table->plans,
                                     railcadence_plans_len(table->plans, table->plan_count),
                                     table->ids, table->slots, table->plan_numbers, table->slots,
                                     table->levels, table->slots, table->lasts, table->slots,
                                     &table->newest, moment, subscriber, plan, cost, out);
    return railcadence_answer_of(out);
}

static inline struct railcadence_answer
railcadence_token_bucket_look(const struct railcadence_token_bucket *table, uint64_t moment,
                              uint32_t subscriber, uint32_t plan)
{
    uint64_t out[RAILCADENCE_NUMBERS];
    railcadence_token_bucket_peek((const uint32_t *)table->plans,
                                  railcadence_plans_len(table->plans, table->plan_count),
                                  table->ids, table->slots, table->plan_numbers, table->slots,
                                  table->levels, table->slots, table->lasts, table->slots,
                                  &table->newest, moment, subscriber, plan, out);
    return railcadence_answer_of(out);
}

static inline struct railcadence_answer
railcadence_token_bucket_wipe(struct railcadence_token_bucket *table)
{
    uint64_t out[RAILCADENCE_NUMBERS];
    railcadence_token_bucket_clear(table->ids, table->slots, table->plan_numbers, table->slots,
                                   table->levels, table->slots, table->lasts, table->slots,
                                   &table->newest, out);
    return railcadence_answer_of(out);
}

static inline bool railcadence_token_bucket_init(struct railcadence_token_bucket *table,
                                                 void *memory, size_t bytes, size_t slots,
                                                 const struct railcadence_plan *plans,
                                                 size_t plan_count)
{
    table->plans = plans;
    table->plan_count = plan_count;
    table->slots = 0;
    table->ids = NULL;
    table->plan_numbers = NULL;
    table->levels = table->lasts = NULL;
    table->newest = 0;
    if (!railcadence_has_room(memory, bytes, railcadence_token_bucket_bytes(slots)) ||
        railcadence_token_bucket_look(table, 0, 1, 0).number == RAILCADENCE_BAD_PLAN)
        return false;
    table->slots = slots;
    table->levels = (uint64_t *)memory;
    table->lasts = table->levels + slots;
    table->ids = (uint32_t *)(void *)(table->lasts + slots);
    table->plan_numbers = (uint8_t *)(table->ids + slots);
    return railcadence_token_bucket_wipe(table).number == RAILCADENCE_CLEARED;
}

#endif
