/* A table of 65,535 slots, the most, and one of 65,536, which is refused; both engines, asked under
 * plan 1 of two: 3 units per second with a burst of 2. At 1000 every slot owes the whole burst of
 * the subscriber in it: 1 has slot 0, 65535 the last. Each line printed is a call and two answers,
 * GCRA's and the token bucket's (number, subscriber, left, reset, wait), and in how many slots each
 * engine wrote.
 *
 *     gcc -std=c11 -o most most.c FOLDER/librailcadence_c.a
 */
#include "railcadence.h"

#include <inttypes.h>
#include <stdio.h>

enum { MOST = 65535, LAST = MOST - 1 };

static const uint32_t plans[6] = {1, 1, 1, 3, 1000, 2}; /* limit, period, burst of each */

/* one entry more than a table may have, as they are, and as they were before a call */
static struct {
    uint32_t gcra_ids[MOST + 1], bucket_ids[MOST + 1];
    uint8_t gcra_plan_numbers[MOST + 1], bucket_plan_numbers[MOST + 1];
    uint64_t tats[MOST + 1], levels[MOST + 1], lasts[MOST + 1];
    uint64_t gcra_newest, bucket_newest;
} now, old;

static void fill(void)
{
    for (uint32_t i = 0; i <= MOST; i++) {
        now.gcra_ids[i] = now.bucket_ids[i] = i + 1;
        now.gcra_plan_numbers[i] = now.bucket_plan_numbers[i] = 1;
        now.tats[i] = 5000; /* 1000 * limit, and period * burst on top */
        now.levels[i] = 0;
        now.lasts[i] = 1000;
    }
    now.gcra_newest = now.bucket_newest = 1000;
}

static void print(const uint64_t gcra[RAILCADENCE_NUMBERS],
                  const uint64_t bucket[RAILCADENCE_NUMBERS])
{
    int wrote[2] = {0, 0};
    for (size_t i = 0; i <= MOST; i++) {
        wrote[0] += now.gcra_ids[i] != old.gcra_ids[i] || now.tats[i] != old.tats[i] ||
                    now.gcra_plan_numbers[i] != old.gcra_plan_numbers[i];
        wrote[1] += now.bucket_ids[i] != old.bucket_ids[i] || now.levels[i] != old.levels[i] ||
                    now.lasts[i] != old.lasts[i] ||
                    now.bucket_plan_numbers[i] != old.bucket_plan_numbers[i];
    }
    printf(" ->");
    for (int i = 0; i < RAILCADENCE_NUMBERS; i++)
        printf(" %" PRIu64, gcra[i]);
    printf(" |");
    for (int i = 0; i < RAILCADENCE_NUMBERS; i++)
        printf(" %" PRIu64, bucket[i]);
    printf(", wrote in %d | %d\n", wrote[0], wrote[1]);
}

static void acquire(size_t slots, uint64_t moment, uint32_t subscriber, uint32_t cost)
{
    uint64_t gcra[RAILCADENCE_NUMBERS], bucket[RAILCADENCE_NUMBERS];
    old = now;
    railcadence_gcra_acquire(plans, 6, now.gcra_ids, slots, now.gcra_plan_numbers, slots,
                             now.tats, slots, &now.gcra_newest,
                             moment, subscriber, 1, cost, gcra);
    railcadence_token_bucket_acquire(plans, 6, now.bucket_ids, slots,
                                     now.bucket_plan_numbers, slots,
                                     now.levels, slots, now.lasts, slots, &now.bucket_newest,
                                     moment, subscriber, 1, cost, bucket);
    printf("%zu slots, acquire %" PRIu64 " %" PRIu32 " %" PRIu32, slots, moment, subscriber, cost);
    print(gcra, bucket);
}

static void peek(size_t slots, uint64_t moment, uint32_t subscriber)
{
    uint64_t gcra[RAILCADENCE_NUMBERS], bucket[RAILCADENCE_NUMBERS];
    old = now;
    railcadence_gcra_peek(plans, 6, now.gcra_ids, slots, now.gcra_plan_numbers, slots,
                          now.tats, slots, &now.gcra_newest, moment, subscriber, 1, gcra);
    railcadence_token_bucket_peek(plans, 6, now.bucket_ids, slots, now.bucket_plan_numbers, slots,
                                  now.levels, slots, now.lasts, slots, &now.bucket_newest,
                                  moment, subscriber, 1, bucket);
    printf("%zu slots, peek %" PRIu64 " %" PRIu32, slots, moment, subscriber);
    print(gcra, bucket);
}

static void clear(size_t slots)
{
    uint64_t gcra[RAILCADENCE_NUMBERS], bucket[RAILCADENCE_NUMBERS];
    old = now;
    railcadence_gcra_clear(now.gcra_ids, slots, now.gcra_plan_numbers, slots, now.tats, slots,
                           &now.gcra_newest, gcra);
    railcadence_token_bucket_clear(now.bucket_ids, slots, now.bucket_plan_numbers, slots,
                                   now.levels, slots, now.lasts, slots, &now.bucket_newest, bucket);
    printf("%zu slots, clear", slots);
    print(gcra, bucket);
}

int main(void)
{
    fill();
    acquire(MOST, 1000, 65535, 1); /* the last slot is its own, and owes everything */
    acquire(MOST, 1000, 65536, 1); /* nobody in the table, and every slot owes */
    peek(MOST, 1000, 65536);
    acquire(MOST + 1, 1000, 65536, 1); /* the same entries as a table of 65,536 slots are none */
    peek(MOST + 1, 1000, 1);
    clear(MOST + 1);
    now.gcra_plan_numbers[LAST] = now.bucket_plan_numbers[LAST] = 0;
    now.tats[LAST] = 1000; /* the last slot owes nothing by its plan, so it is free */
    now.levels[LAST] = 1;
    acquire(MOST, 1000, 65536, 2);
    printf("last slot: %" PRIu32 " %d %" PRIu64 " | %" PRIu32 " %d %" PRIu64 " %" PRIu64 "\n",
           now.gcra_ids[LAST], now.gcra_plan_numbers[LAST], now.tats[LAST],
           now.bucket_ids[LAST], now.bucket_plan_numbers[LAST], now.levels[LAST], now.lasts[LAST]);
    acquire(MOST, 1667, 65537, 2); /* all are free, and the lowest is taken */
    now.tats[0] = 7002;            /* one tick more than can be owed at 1667 */
    now.levels[0] = 2001;
    acquire(MOST, 1667, 65537, 1); /* so the record is damaged */
    clear(MOST);
    acquire(MOST, 0, 1, 2);
    return 0;
}
