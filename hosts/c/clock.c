/* A clock that goes back, the newest moment that a table keeps, and a clock that ends: both engines,
 * each on a table of two slots under a plan of 3 units per second with a burst of 2. Each line
 * printed is a call and two answers, GCRA's and the token bucket's (number, subscriber, left, reset,
 * wait), what newest holds afterwards in each table, and whether anything of either table was
 * written.
 *
 *     gcc -std=c11 -o clock clock.c FOLDER/librailcadence_c.a
 */
#include "railcadence.h"

#include <inttypes.h>
#include <stdio.h>
#include <string.h>

enum { SLOTS = 2 };

static const uint64_t last_moment = 4398046511103;
static uint32_t plans[3] = {3, 1000, 2}; /* limit, period, burst */
static size_t slots = SLOTS;

/* both tables, as they are, and as they were before a call */
static struct {
    uint32_t gcra_ids[SLOTS], bucket_ids[SLOTS];
    uint8_t gcra_plan_numbers[SLOTS], bucket_plan_numbers[SLOTS];
    uint64_t tats[SLOTS], levels[SLOTS], lasts[SLOTS], gcra_newest, bucket_newest;
} now, old;

static void print_numbers(const uint64_t out[RAILCADENCE_NUMBERS])
{
    for (int i = 0; i < RAILCADENCE_NUMBERS; i++)
        printf(" %" PRIu64, out[i]);
}

static void print(const uint64_t gcra[RAILCADENCE_NUMBERS],
                  const uint64_t bucket[RAILCADENCE_NUMBERS])
{
    printf(" ->");
    print_numbers(gcra);
    printf(" |");
    print_numbers(bucket);
    printf(", newest %" PRIu64 " | %" PRIu64 ", %s\n", now.gcra_newest, now.bucket_newest,
           memcmp(&now, &old, sizeof now) == 0 ? "kept" : "written");
}

static void acquire(uint64_t moment, uint32_t subscriber, uint32_t cost)
{
    uint64_t gcra[RAILCADENCE_NUMBERS], bucket[RAILCADENCE_NUMBERS];
    memcpy(&old, &now, sizeof old);
    railcadence_gcra_acquire(plans, 3, now.gcra_ids, slots, now.gcra_plan_numbers, slots,
                             now.tats, slots, &now.gcra_newest,
                             moment, subscriber, 0, cost, gcra);
    railcadence_token_bucket_acquire(plans, 3, now.bucket_ids, slots,
                                     now.bucket_plan_numbers, slots,
                                     now.levels, slots, now.lasts, slots, &now.bucket_newest,
                                     moment, subscriber, 0, cost, bucket);
    printf("acquire %" PRIu64 " %" PRIu32 " %" PRIu32, moment, subscriber, cost);
    print(gcra, bucket);
}

static void peek(uint64_t moment, uint32_t subscriber)
{
    uint64_t gcra[RAILCADENCE_NUMBERS], bucket[RAILCADENCE_NUMBERS];
    memcpy(&old, &now, sizeof old);
    railcadence_gcra_peek(plans, 3, now.gcra_ids, slots, now.gcra_plan_numbers, slots,
                          now.tats, slots, &now.gcra_newest, moment, subscriber, 0, gcra);
    railcadence_token_bucket_peek(plans, 3, now.bucket_ids, slots, now.bucket_plan_numbers, slots,
                                  now.levels, slots, now.lasts, slots, &now.bucket_newest,
                                  moment, subscriber, 0, bucket);
    printf("peek %" PRIu64 " %" PRIu32, moment, subscriber);
    print(gcra, bucket);
}

static void clear(void)
{
    uint64_t gcra[RAILCADENCE_NUMBERS], bucket[RAILCADENCE_NUMBERS];
    memcpy(&old, &now, sizeof old);
    railcadence_gcra_clear(now.gcra_ids, slots, now.gcra_plan_numbers, slots, now.tats, slots,
                           &now.gcra_newest, gcra);
    railcadence_token_bucket_clear(now.bucket_ids, slots, now.bucket_plan_numbers, slots,
                                   now.levels, slots, now.lasts, slots, &now.bucket_newest, bucket);
    printf("clear");
    print(gcra, bucket);
}

/* as a table that was saved may have it */
static void store(uint64_t newest)
{
    now.gcra_newest = now.bucket_newest = newest;
    printf("store %" PRIu64 "\n", newest);
}

static void go_back(void)
{
    acquire(1000, 7, 1);
    acquire(999, 7, 1); /* a millisecond back: 11, */
    acquire(999, 8, 1); /* whoever asks, though a slot is empty, */
    peek(999, 8);
    acquire(999, 0, 0); /* and before 4, 5 */
    acquire(999, 7, 3); /* and 6 */
    peek(999, 0);
    acquire(1000, 8, 2); /* an equal moment is not earlier */
    acquire(1001, 8, 1); /* who waits */
    peek(5000, 7);       /* or peeks does not write newest, */
    acquire(1000, 7, 1); /* so 1000 is not early yet */
}

static void load(void)
{
    store(UINT64_MAX); /* no moment within the limit gets by */
    acquire(last_moment, 7, 1);
    peek(last_moment, 7);
    acquire(last_moment + 1, 7, 1); /* 3 comes before 11, */
    slots = 0;
    acquire(0, 7, 1); /* and so does 2, */
    clear();          /* which leaves newest to a clear too, */
    plans[0] = 0;
    acquire(0, 7, 1); /* and 1 */
    plans[0] = 3;
    slots = SLOTS;
    clear(); /* the moments may begin anew */
    acquire(0, 7, 1);
    store(last_moment);
    acquire(last_moment - 1, 8, 1);
    acquire(last_moment, 8, 1);
}

/* Who spends both units waits 334 ms for the next. */
static void run_out(void)
{
    clear();
    acquire(last_moment - 334, 7, 2);
    acquire(last_moment - 334, 7, 1); /* the wait ends at the last moment: 8, */
    acquire(last_moment - 334, 7, 2); /* and for both units after it: 13 */
    acquire(last_moment - 333, 8, 2);
    acquire(last_moment - 333, 8, 1); /* a millisecond later, 334 ms are too many: 13 */
    peek(last_moment - 333, 8);
    acquire(last_moment - 1, 7, 1);
    acquire(last_moment, 8, 1); /* one tick is missing, and there is no later moment */
    peek(last_moment, 8);
    acquire(last_moment, 8, 3); /* 6 comes before 13, */
    acquire(last_moment, 9, 1); /* and 9 is told as ever */
    acquire(last_moment, 7, 1);
    acquire(last_moment, 7, 1);
    clear(); /* and nothing is owed any more */
    acquire(last_moment, 8, 1);
}

int main(void)
{
    go_back();
    load();
    run_out();
    return 0;
}
