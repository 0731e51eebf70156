/* NAME
 *     railcadence - a rate limiter over tables that the caller lends
 *
 * SYNOPSIS
 *     #include "railcadence.h"
 *     gcc -std=c11 -o program program.c librailcadence_c.a
 *
 *     railcadence_gcra_acquire          railcadence_token_bucket_acquire
 *     railcadence_gcra_peek             railcadence_token_bucket_peek
 *     railcadence_gcra_clear            railcadence_token_bucket_clear
 *     railcadence_transcribe            railcadence_http_fields
 *     railcadence_may_retry
 *
 *     The archive is for x86-64 programs, and needs nothing but memset. C++ may include this file.
 *     railcadence_tables.h beside it has the same calls with fewer arguments, on tables that keep
 *     their plans and columns together.
 *
 * DESCRIPTION
 *     A plan allows `limit` units per `period` milliseconds, and up to `burst` units at once. A
 *     subscriber's request has a cost in units, and is made under one of up to 16 plans. The answer
 *     is that it is admitted, or for how many milliseconds it must wait, or why it is refused.
 *
 *     Two engines keep plans, GCRA and the token bucket, each with calls and columns of its own. On
 *     cleared tables with equally many slots, the same calls get the same answers from both,
 *     whatever their moments, if the same plans are lent in all of them. GCRA stores one number a
 *     slot, the token bucket two. What each call does stands at its prototype. No clock is read:
 *     the moment is an argument.
 *
 * UNITS AND RANGES
 *     argument        least  most
 *     plans_len       3      48, a multiple of 3       numbers, three for each plan:
 *       limit         1      1000000                   units
 *       period        1      2678400000 (31 days)      milliseconds
 *       burst         1      1000000                   units
 *     other .._len    1      65535, all the same       slots
 *     moment          0      4398046511103 (2^42 - 1)  milliseconds, from any fixed zero
 *     subscriber      1      4294967295                a number for whoever asks
 *     plan            0      plans_len / 3 - 1         the number of a plan
 *     cost            1      the plan's burst          units
 *
 *     Any values may be passed: outside these limits the answer says so, and nothing of the table
 *     is written.
 *
 * PLANS
 *     The plans are lent together, 1 to 16 of them, as one array: limit, period and burst of plan
 *     0, then of plan 1, and so on. An array of struct railcadence_plan has this layout, so a
 *     pointer to it may be converted to one to uint32_t. If any plan among them is outside its
 *     limits, every acquire and peek gets outcome 1, whichever plan it asks for.
 *
 *     An admission writes the number of its plan into the subscriber's slot, and what is owed there
 *     is reckoned by that plan from then on. A subscriber that still owes is served under that plan
 *     alone: under another it gets outcome 12. Once it owes nothing, any plan serves it, as if it
 *     had never asked, and it keeps its slot. A peek under the slot's own plan says from when, by
 *     its reset; if that is above the moment's limit, this clock ends before. Plans are told apart
 *     by their numbers, though their values be the same.
 *
 *     So lend the same plans in every call on a table. Further ones may be added at their end.
 *     Before a plan gets other values or another number, or is taken away, clear the table.
 *
 * THE TABLE
 *     Columns of one length, with an entry for each slot, and beside them one number, `newest`.
 *     Zeros everywhere are an empty table, and that is what a clear makes.
 *
 *     Slot i is ids[i], plan_numbers[i] and the engine's record for it: tats[i] for GCRA, levels[i]
 *     and lasts[i] for the token bucket. A slot whose id is 0 is empty, whatever its other columns
 *     say. A subscriber without a slot gets the lowest free one when it is admitted. A slot is free
 *     if it is empty, or if its subscriber owes nothing any more by the slot's own plan, so a table
 *     needs as many slots as subscribers owe something at the same time. A slot that is not empty
 *     and has the number of a plan that is not lent is not free. A call looks at the slots from the
 *     first on, so it takes longer the more there are.
 *
 *     newest is the newest moment at which anything was admitted since the table was cleared,
 *     whoever the subscriber; 0 if nothing was. An admission writes its moment there, a clear
 *     writes 0, and nothing else writes it. Acquires and peeks at an earlier moment are refused
 *     (outcome 11): the clock went back, or more than one clock serves the table. An equal moment
 *     is not earlier. Any value may be in newest; where it is above the moment's limit, every
 *     moment within the limit is refused so until a clear.
 *
 *     Tats and levels are counted in ticks. Under a plan a millisecond is `limit` ticks and a unit
 *     costs `period` ticks, so a record means nothing without its plan.
 *
 *     Between calls the columns and newest may be read, copied and saved, all of them together; a
 *     table that is loaded again goes on where it was, under the same plans. Its clock must go on
 *     too: where moments are counted from another zero, clear the table.
 *
 * THE ANSWER
 *     Every call of an engine writes five numbers to out:
 *
 *     out[RAILCADENCE_NUMBER]      the outcome, below
 *     out[RAILCADENCE_SUBSCRIBER]  the subscriber asked for, in refusals too; 0 for a clear
 *     out[RAILCADENCE_LEFT]        whole units left after the call
 *     out[RAILCADENCE_RESET]       the first moment at which nothing is owed any more. A subscriber
 *                                  that has a slot gets its whole burst from then on, and not
 *                                  before, if nothing else is admitted meanwhile and that moment is
 *                                  within its limit
 *     out[RAILCADENCE_WAIT]        when throttled, the least number of milliseconds after which the
 *                                  same request is admitted, if nothing else is admitted meanwhile;
 *                                  otherwise 0
 *
 *     The first line that applies gives the outcome. Under all but 8 and 0, and in the answer to a
 *     clear, left, reset and wait are 0. 'retry' has yes where the same request may simply be made
 *     again later, and no where that does not help: the caller is at fault and has something to
 *     mend first, or, under 13, the clock ends too soon; railcadence_may_retry says the same.
 *
 *         retry
 *      1  no     RAILCADENCE_BAD_PLAN          no plans or more than 16, a plan among them outside
 *                                              its limits, a length that is no multiple of 3, or
 *                                              the plan asked for is not lent
 *      2  no     RAILCADENCE_BAD_TABLE         the columns are of different lengths, or have too
 *                                              few or too many slots
 *      3  no     RAILCADENCE_LATE_MOMENT       the moment is above its limit
 *     11  no     RAILCADENCE_EARLY_MOMENT      the moment is before newest: set the clock right,
 *                                              and use one clock for a table
 *      4  no     RAILCADENCE_NO_SUBSCRIBER     subscriber 0
 *      5  no     RAILCADENCE_ZERO_COST         cost 0
 *      6  no     RAILCADENCE_COST_ABOVE_BURST  the cost is above the burst of the plan asked for,
 *                                              and can never be admitted under it
 *      7  no     RAILCADENCE_CORRUPT_RECORD    the subscriber's own slot holds what no admission up
 *                                              to this moment can have left under the slot's plan,
 *                                              or the number of a plan that is not lent: the table
 *                                              is damaged, or other plans are lent; clear the table
 *     12  yes    RAILCADENCE_OTHER_PLAN        the subscriber still owes under another plan: ask
 *                                              under that one, or later, when nothing is owed
 *     13  no     RAILCADENCE_NOT_ON_CLOCK      not now, and the least wait ends above the moment's
 *                                              limit: it is not served while this clock lasts
 *      8  yes    RAILCADENCE_THROTTLED         not now: wait
 *      9  yes    RAILCADENCE_TABLE_FULL        the subscriber has no slot, and none is free
 *      0         RAILCADENCE_ADMITTED          admitted
 *                RAILCADENCE_REPORTED          of a peek: what is left and the reset; it admits
 *                                              nothing, and there may be 0 left
 *                RAILCADENCE_CLEARED           of a clear: done
 *
 *     Under 13 there is no time to come back at. It comes only when less is left of the clock than
 *     the cost takes to be earned: near the moment's limit, or earlier under a plan that takes
 *     years for that. A smaller cost may be admitted, and after a clear the same one is. Where the
 *     clock is about to end, clear the table and count moments from a later zero.
 *
 *     Further numbers may come with further rules: treat one that you do not know as a refusal.
 *
 * MEMORY
 *     The caller owns all of it. Nothing is allocated, kept after the call, or freed.
 *
 *     plans and each column must be aligned, and valid for as many elements as its length says: for
 *     reading, and for writing unless it is const. What has length 0 may be NULL: it is neither
 *     read nor written, and the outcome is 1 for plans, and for a column 2, or 1 if that applies
 *     too. newest must be aligned, valid for reading one number, and for writing it unless it is
 *     const, and never NULL, whatever the lengths. out must be valid for writing five numbers, and
 *     not NULL; what it held does not matter. plans, the columns, newest and out must not overlap
 *     each other.
 *
 * THREADS
 *     One table serves one caller at a time: whoever calls from several threads holds a lock on
 *     the table, and reads the clock under it, since a moment that was read before another's
 *     admission may be earlier than that and get 11. Only peeks of a table may overlap each other.
 *     There is no global state, so different tables may be used at the same time, and share plans.
 *
 * EXAMPLE
 *     example.c beside this file asks both engines; plans.c has several plans in one table, clock.c
 *     a clock that goes back, and one that ends. shop.c and museum.c are short programs over
 *     railcadence_tables.h.
 */
#ifndef RAILCADENCE_H
#define RAILCADENCE_H

#include <stdbool.h>
#include <stddef.h>
#include <stdint.h>

#ifdef __cplusplus
extern "C" {
#endif

/* A plan, and how many may be lent together. */
struct railcadence_plan {
    uint32_t limit, period, burst;
};

enum { RAILCADENCE_MOST_PLANS = 16 };

/* The most slots of a table. */
enum { RAILCADENCE_MOST_SLOTS = 65535 };

/* The places of the five numbers in out, and how many there are. */
enum {
    RAILCADENCE_NUMBER = 0,
    RAILCADENCE_SUBSCRIBER = 1,
    RAILCADENCE_LEFT = 2,
    RAILCADENCE_RESET = 3,
    RAILCADENCE_WAIT = 4,
    RAILCADENCE_NUMBERS = 5
};

/* The outcomes. 0 has a name for each kind of call. */
enum {
    RAILCADENCE_ADMITTED = 0,
    RAILCADENCE_REPORTED = 0,
    RAILCADENCE_CLEARED = 0,
    RAILCADENCE_BAD_PLAN = 1,
    RAILCADENCE_BAD_TABLE = 2,
    RAILCADENCE_LATE_MOMENT = 3,
    RAILCADENCE_NO_SUBSCRIBER = 4,
    RAILCADENCE_ZERO_COST = 5,
    RAILCADENCE_COST_ABOVE_BURST = 6,
    RAILCADENCE_CORRUPT_RECORD = 7,
    RAILCADENCE_THROTTLED = 8,
    RAILCADENCE_TABLE_FULL = 9,
    RAILCADENCE_EARLY_MOMENT = 11,
    RAILCADENCE_OTHER_PLAN = 12,
    RAILCADENCE_NOT_ON_CLOCK = 13
};

/* Whether the same request may simply be made again later: under 8, after the wait, under 9, and
 * under 12, when nothing is owed any more. */
static inline bool railcadence_may_retry(uint64_t number)
{
    return number == RAILCADENCE_THROTTLED || number == RAILCADENCE_TABLE_FULL ||
           number == RAILCADENCE_OTHER_PLAN;
}

/* The GCRA engine. Its record is one number, the TAT: the moment at which nothing is owed any more,
 * in ticks. */

/* Decides on a request, and spends its cost if it is admitted. Only outcome 0 writes in the
 * table: the subscriber's slot, and the moment in newest. */
void railcadence_gcra_acquire(const uint32_t *plans, size_t plans_len,
                              uint32_t *ids, size_t ids_len,
                              uint8_t *plan_numbers, size_t plan_numbers_len,
                              uint64_t *tats, size_t tats_len, uint64_t *newest,
                              uint64_t moment, uint32_t subscriber, uint32_t plan, uint32_t cost,
                              uint64_t out[RAILCADENCE_NUMBERS]);

/* Reports what a subscriber has left under a plan and when nothing is owed, and spends nothing:
 * outcomes 1 to 4, 7, 11 and 12, otherwise 0. A subscriber without a slot has the plan's whole
 * burst left, and so has one that owes nothing. Nothing of the table is written. */
void railcadence_gcra_peek(const uint32_t *plans, size_t plans_len,
                           const uint32_t *ids, size_t ids_len,
                           const uint8_t *plan_numbers, size_t plan_numbers_len,
                           const uint64_t *tats, size_t tats_len, const uint64_t *newest,
                           uint64_t moment, uint32_t subscriber, uint32_t plan,
                           uint64_t out[RAILCADENCE_NUMBERS]);

/* Makes every column all zeros and newest 0, outcome 0; or outcome 2, and nothing of the table is
 * written. */
void railcadence_gcra_clear(uint32_t *ids, size_t ids_len,
                            uint8_t *plan_numbers, size_t plan_numbers_len,
                            uint64_t *tats, size_t tats_len, uint64_t *newest,
                            uint64_t out[RAILCADENCE_NUMBERS]);

/* The token bucket engine. Its record is two numbers: the level that the last admission left, in
 * ticks, of which a full bucket has period * burst; and the moment of that admission, in
 * milliseconds. Its calls are those of GCRA with one column more. */

void railcadence_token_bucket_acquire(const uint32_t *plans, size_t plans_len,
                                      uint32_t *ids, size_t ids_len,
                                      uint8_t *plan_numbers, size_t plan_numbers_len,
                                      uint64_t *levels, size_t levels_len,
                                      uint64_t *lasts, size_t lasts_len, uint64_t *newest,
                                      uint64_t moment, uint32_t subscriber, uint32_t plan,
                                      uint32_t cost, uint64_t out[RAILCADENCE_NUMBERS]);

void railcadence_token_bucket_peek(const uint32_t *plans, size_t plans_len,
                                   const uint32_t *ids, size_t ids_len,
                                   const uint8_t *plan_numbers, size_t plan_numbers_len,
                                   const uint64_t *levels, size_t levels_len,
                                   const uint64_t *lasts, size_t lasts_len, const uint64_t *newest,
                                   uint64_t moment, uint32_t subscriber, uint32_t plan,
                                   uint64_t out[RAILCADENCE_NUMBERS]);

void railcadence_token_bucket_clear(uint32_t *ids, size_t ids_len,
                                    uint8_t *plan_numbers, size_t plan_numbers_len,
                                    uint64_t *levels, size_t levels_len,
                                    uint64_t *lasts, size_t lasts_len, uint64_t *newest,
                                    uint64_t out[RAILCADENCE_NUMBERS]);

/* The tabbed text: a plan line and asks, as the program railcadence reads them on standard input;
 * here a whole text at once, from memory to memory.
 *
 * Writes to out what the program prints: the header, and a line for each answer. ids, plan_numbers,
 * tats and newest are the GCRA table: a good first line clears as many slots as it names and makes
 * newest 0, and the asks use these, under the one plan of the text, which has number 0. The other
 * slots stay as they were, and so do all slots and newest if there is no good first line. Bytes of
 * out after the text stay, and no NUL is added.
 *
 *     ids_len, plan_numbers_len, tats_len
 *              at least 1024 each, however few slots the text names; they may differ
 *     out_len  at least 35 + 105 * (n + 1), where n is the number of LFs in text
 *
 * Any bytes are a text, none too. result gets two numbers:
 *
 *     result[RAILCADENCE_RESULT]  the first that applies of RAILCADENCE_SHORT_TABLE,
 *                                 RAILCADENCE_SHORT_OUTPUT and RAILCADENCE_WRITTEN
 *     result[RAILCADENCE_BYTES]   how many bytes were written to out; 0 if it is not
 *                                 RAILCADENCE_WRITTEN
 *
 * If it is not RAILCADENCE_WRITTEN, nothing but result is written. MEMORY holds here too: what has
 * length 0 may be NULL, newest never, result must be valid for writing two numbers, and what is not
 * const must overlap nothing else. */
enum {
    RAILCADENCE_RESULT = 0,
    RAILCADENCE_BYTES = 1,
    RAILCADENCE_TEXT_NUMBERS = 2
};

enum {
    RAILCADENCE_WRITTEN = 0,
    RAILCADENCE_SHORT_TABLE = 1,
    RAILCADENCE_SHORT_OUTPUT = 2
};

void railcadence_transcribe(const uint8_t *text, size_t text_len,
                            uint32_t *ids, size_t ids_len,
                            uint8_t *plan_numbers, size_t plan_numbers_len,
                            uint64_t *tats, size_t tats_len, uint64_t *newest,
                            uint8_t *out, size_t out_len,
                            uint64_t result[RAILCADENCE_TEXT_NUMBERS]);

/* What to tell a client over HTTP: RateLimit-Policy: "shop";q=QUOTA;w=WINDOW, RateLimit:
 * "shop";r=REMAINING;t=RESET, and beside status 429 Retry-After: RETRY_AFTER. All times are whole
 * seconds, rounded up, so what is told may end up to 999 ms after the wait or the reset, and then
 * above the moment's limit.
 *
 * Under 13 the request is not served while the host's clock lasts, so there is no time to come back
 * at: the status is the host's choice, such as 503, and goes without Retry-After.
 *
 * The places of the five numbers in out, and how many there are. */
enum {
    RAILCADENCE_HTTP_QUOTA = 0,       /* the burst */
    RAILCADENCE_HTTP_WINDOW = 1,      /* in which a whole burst is earned */
    RAILCADENCE_HTTP_REMAINING = 2,   /* under 0 and 8, what is left; otherwise 0 */
    RAILCADENCE_HTTP_RESET = 3,       /* under 0 and 8, from the moment to the reset: a client that
                                       * has a slot and waits so long gets its whole burst, if
                                       * nothing else is admitted meanwhile and that moment is
                                       * within its limit, and a second less is not enough;
                                       * otherwise 0 */
    RAILCADENCE_HTTP_RETRY_AFTER = 4, /* under 8, the wait: a client that waits so long is admitted,
                                       * if nothing else is admitted meanwhile and that moment is
                                       * within its limit, and a second less is not enough;
                                       * otherwise 0 */
    RAILCADENCE_HTTP_FIELDS = 5
};

/* Reckons the fields for an answer that an acquire or a peek under this plan gave at this moment.
 * Any numbers may be passed: outside its limits a plan gives five zeros. answer must be valid for
 * reading five numbers, out for writing five; they must not overlap. */
void railcadence_http_fields(uint32_t limit, uint32_t period, uint32_t burst,
                             uint64_t moment,
                             const uint64_t answer[RAILCADENCE_NUMBERS],
                             uint64_t out[RAILCADENCE_HTTP_FIELDS]);

#ifdef __cplusplus
}
#endif

#endif
