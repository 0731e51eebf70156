/* A table of one slot under a plan of 3 units per second with a burst of 2: document 01's example,
 * asked of both engines, each on a table of its own. Each line printed is a call (acquire with
 * moment, subscriber and cost; peek with moment and subscriber) and two answers, GCRA's and the
 * token bucket's: number, subscriber, left, reset, wait.
 *
 *     gcc -std=c11 -o example example.c FOLDER/librailcadence_c.a
 */
#include "railcadence.h"

#include <inttypes.h>
#include <stdio.h>

#define SLOTS 1

/* limit, period and burst of plan 0, the only one */
static const uint32_t plans[3] = {3, 1000, 2};

/* GCRA's table */
static uint32_t gcra_ids[SLOTS];
static uint8_t gcra_plan_numbers[SLOTS];
static uint64_t tats[SLOTS], gcra_newest;

/* the token bucket's table */
static uint32_t bucket_ids[SLOTS];
static uint8_t bucket_plan_numbers[SLOTS];
static uint64_t levels[SLOTS], lasts[SLOTS], bucket_newest;

static void print_numbers(const uint64_t out[RAILCADENCE_NUMBERS])
{
    for (int i = 0; i < RAILCADENCE_NUMBERS; i++)
        printf(" %" PRIu64, out[i]);
}

static void print(const uint64_t gcra[RAILCADENCE_NUMBERS],
                  const uint64_t bucket[RAILCADENCE_NUMBERS])
{
    printf(" ->");
    print_numbers(gcra);
    printf(" |");
    print_numbers(bucket);
    printf("\n");
}

static void clear(void)
{
    uint64_t gcra[RAILCADENCE_NUMBERS], bucket[RAILCADENCE_NUMBERS];
    railcadence_gcra_clear(gcra_ids, SLOTS, gcra_plan_numbers, SLOTS, tats, SLOTS, &gcra_newest,
                           gcra);
    railcadence_token_bucket_clear(bucket_ids, SLOTS, bucket_plan_numbers, SLOTS,
                                   levels, SLOTS, lasts, SLOTS, &bucket_newest, bucket);
    printf("clear");
    print(gcra, bucket);
}

static void acquire(uint64_t moment, uint32_t subscriber, uint32_t cost)
{
    uint64_t gcra[RAILCADENCE_NUMBERS], bucket[RAILCADENCE_NUMBERS];
    railcadence_gcra_acquire(plans, 3, gcra_ids, SLOTS, gcra_plan_numbers, SLOTS, tats, SLOTS,
                             &gcra_newest, moment, subscriber, 0, cost, gcra);
    railcadence_token_bucket_acquire(plans, 3, bucket_ids, SLOTS, bucket_plan_numbers, SLOTS,
                                     levels, SLOTS, lasts, SLOTS, &bucket_newest,
                                     moment, subscriber, 0, cost, bucket);
    printf("acquire %" PRIu64 " %" PRIu32 " %" PRIu32, moment, subscriber, cost);
    print(gcra, bucket);
}

static void peek(uint64_t moment, uint32_t subscriber)
{
    uint64_t gcra[RAILCADENCE_NUMBERS], bucket[RAILCADENCE_NUMBERS];
    railcadence_gcra_peek(plans, 3, gcra_ids, SLOTS, gcra_plan_numbers, SLOTS, tats, SLOTS,
                          &gcra_newest, moment, subscriber, 0, gcra);
    railcadence_token_bucket_peek(plans, 3, bucket_ids, SLOTS, bucket_plan_numbers, SLOTS,
                                  levels, SLOTS, lasts, SLOTS, &bucket_newest,
                                  moment, subscriber, 0, bucket);
    printf("peek %" PRIu64 " %" PRIu32, moment, subscriber);
    print(gcra, bucket);
}

int main(void)
{
    clear();
    acquire(1000, 7, 1);
    acquire(1000, 7, 1);
    peek(1000, 7);
    acquire(1000, 7, 1); /* throttled: the least wait is 334 */
    acquire(1333, 7, 1); /* and 333 are not enough */
    acquire(1334, 7, 1);
    acquire(1334, 7, 3); /* more than the burst */
    acquire(1334, 8, 2); /* the only slot is taken */
    peek(1334, 8);       /* whoever has no slot has the whole burst left */
    acquire(2000, 8, 2); /* 7 owes nothing any more, so its slot is free */
    acquire(2000, 7, 1);
    acquire(1999, 8, 1); /* the clock went back: 8 was admitted at 2000 */
    peek(1999, 7);       /* whoever asks */
    peek(2000, 7);
    clear();
    peek(1999, 7); /* a cleared table takes any moment */
    return 0;
}
