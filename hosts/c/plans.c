/* Several plans in one table: which lists of plans are taken, and what becomes of a subscriber that
 * changes its plan; both engines. Plan 0 is 3 units per second with a burst of 2, plan 1 is 10 with
 * a burst of 5, plan 2 has the values of plan 0. The first lines printed are lists of plans, and
 * the outcomes of GCRA's and the token bucket's peek. After them each is a call on tables of two
 * slots, named by its moment, subscriber, plan and cost, and two answers (number, subscriber, left,
 * reset, wait), the plan numbers afterwards, and whether anything of either table was written.
 *
 *     gcc -std=c11 -o plans plans.c FOLDER/librailcadence_c.a
 */
#include "railcadence.h"

#include <inttypes.h>
#include <stdio.h>
#include <string.h>

enum { SLOTS = 2, MOST_LEN = 3 * RAILCADENCE_MOST_PLANS };

static const struct railcadence_plan three[] = {{3, 1000, 2}, {10, 1000, 5}, {3, 1000, 2}};

/* both tables, as they are, and as they were before a call */
static struct {
    uint32_t gcra_ids[SLOTS], bucket_ids[SLOTS];
    uint64_t tats[SLOTS], levels[SLOTS], lasts[SLOTS], gcra_newest, bucket_newest;
    uint8_t gcra_numbers[SLOTS], bucket_numbers[SLOTS];
} now, old;

static uint64_t gcra[RAILCADENCE_NUMBERS], bucket[RAILCADENCE_NUMBERS];

static void peek_under(const uint32_t *plans, size_t plans_len, uint64_t moment,
                       uint32_t subscriber, uint32_t plan)
{
    railcadence_gcra_peek(plans, plans_len, now.gcra_ids, SLOTS, now.gcra_numbers, SLOTS,
                          now.tats, SLOTS, &now.gcra_newest, moment, subscriber, plan, gcra);
    railcadence_token_bucket_peek(plans, plans_len, now.bucket_ids, SLOTS,
                                  now.bucket_numbers, SLOTS, now.levels, SLOTS, now.lasts, SLOTS,
                                  &now.bucket_newest, moment, subscriber, plan, bucket);
}

static void print_list(const char *what, const uint32_t *plans, size_t plans_len, uint32_t plan)
{
    peek_under(plans, plans_len, 1000, 7, plan);
    printf("%s%zu numbers, plan %" PRIu32 " -> %" PRIu64 " | %" PRIu64 "\n", what, plans_len, plan,
           gcra[RAILCADENCE_NUMBER], bucket[RAILCADENCE_NUMBER]);
}

/* sixteen plans of which one number is another */
static void print_changed(const char *what, size_t place, uint32_t number)
{
    uint32_t plans[MOST_LEN];
    for (size_t i = 0; i < MOST_LEN; i++)
        plans[i] = 1;
    plans[place] = number;
    print_list(what, plans, MOST_LEN, 0);
}

static void lists(void)
{
    uint32_t plans[MOST_LEN + 3];
    for (size_t i = 0; i < MOST_LEN + 3; i++)
        plans[i] = 1;
    print_list("", NULL, 0, 0);
    print_list("", plans, 0, 0);
    for (size_t length = 1; length <= 6; length++) /* only whole plans will do */
        print_list("", plans, length, 0);
    print_list("", plans, 3, 1); /* one that is not lent */
    print_list("", plans, 6, 1);
    print_list("", plans, MOST_LEN, 15);
    print_list("", plans, MOST_LEN, 16);
    print_list("", plans, MOST_LEN, UINT32_MAX);
    print_list("", plans, MOST_LEN + 1, 0);
    print_list("", plans, MOST_LEN + 3, 0); /* seventeen */
    print_list("", plans, MOST_LEN + 3, 16);
    print_changed("limit 0: ", 45, 0); /* of plan 15, and plan 0 is asked for */
    print_changed("limit 1000000: ", 45, 1000000);
    print_changed("limit 1000001: ", 45, 1000001);
    print_changed("period 0: ", 46, 0);
    print_changed("period 2678400000: ", 46, 2678400000);
    print_changed("period 2678400001: ", 46, 2678400001);
    print_changed("burst 0: ", 47, 0);
    print_changed("burst 1000000: ", 47, 1000000);
    print_changed("burst 1000001: ", 47, 1000001);
    print_changed("limit 0 of plan 7: ", 21, 0);
}

static void print(void)
{
    printf(" ->");
    for (int i = 0; i < RAILCADENCE_NUMBERS; i++)
        printf(" %" PRIu64, gcra[i]);
    printf(" |");
    for (int i = 0; i < RAILCADENCE_NUMBERS; i++)
        printf(" %" PRIu64, bucket[i]);
    printf(", plans %d %d | %d %d, %s\n", now.gcra_numbers[0], now.gcra_numbers[1],
           now.bucket_numbers[0], now.bucket_numbers[1],
           memcmp(&now, &old, sizeof now) == 0 ? "kept" : "written");
}

static void acquire(uint64_t moment, uint32_t subscriber, uint32_t plan, uint32_t cost)
{
    const uint32_t *plans = (const uint32_t *)three;
    memcpy(&old, &now, sizeof old);
    railcadence_gcra_acquire(plans, 9, now.gcra_ids, SLOTS, now.gcra_numbers, SLOTS,
                             now.tats, SLOTS, &now.gcra_newest,
                             moment, subscriber, plan, cost, gcra);
    railcadence_token_bucket_acquire(plans, 9, now.bucket_ids, SLOTS, now.bucket_numbers, SLOTS,
                                     now.levels, SLOTS, now.lasts, SLOTS, &now.bucket_newest,
                                     moment, subscriber, plan, cost, bucket);
    printf("acquire %" PRIu64 " %" PRIu32 " %" PRIu32 " %" PRIu32, moment, subscriber, plan, cost);
    print();
}

static void peek(uint64_t moment, uint32_t subscriber, uint32_t plan)
{
    memcpy(&old, &now, sizeof old);
    peek_under((const uint32_t *)three, 9, moment, subscriber, plan);
    printf("peek %" PRIu64 " %" PRIu32 " %" PRIu32, moment, subscriber, plan);
    print();
}

static void clear(void)
{
    memcpy(&old, &now, sizeof old);
    railcadence_gcra_clear(now.gcra_ids, SLOTS, now.gcra_numbers, SLOTS, now.tats, SLOTS,
                           &now.gcra_newest, gcra);
    railcadence_token_bucket_clear(now.bucket_ids, SLOTS, now.bucket_numbers, SLOTS,
                                   now.levels, SLOTS, now.lasts, SLOTS, &now.bucket_newest, bucket);
    printf("clear");
    print();
}

static void change(void)
{
    acquire(1000, 7, 0, 2);
    acquire(1000, 7, 1, 1); /* it owes under plan 0: 12, */
    acquire(1000, 7, 1, 3); /* whatever the burst there, */
    peek(1000, 7, 1);
    acquire(1000, 7, 2, 1); /* and though the values are the same, */
    acquire(1000, 7, 3, 1); /* but 1 comes before it, */
    acquire(1000, 7, 1, 6); /* and 6, by the plan asked for */
    acquire(1000, 7, 0, 1);
    acquire(1666, 7, 1, 5); /* two ticks are owed, */
    peek(1666, 7, 0);
    peek(1667, 7, 1); /* and then none, */
    acquire(1667, 7, 1, 5); /* so the slot gets its new plan */
    acquire(1667, 7, 0, 1);
    peek(2167, 7, 0);
}

static void take_over(void)
{
    acquire(1667, 8, 0, 1); /* owes until 2001 by its own plan, and by plan 1 nothing at 2000 */
    acquire(2000, 9, 1, 1);
    acquire(2001, 9, 1, 1);
    acquire(2300, 9, 0, 1); /* it changes its plan, and keeps its slot, though slot 0 is free too */
}

/* as a table that was saved under more plans, or damaged, may have it */
static void store(uint32_t id, uint8_t number, uint64_t tat, uint64_t level, uint64_t last)
{
    now.gcra_ids[0] = now.bucket_ids[0] = id;
    now.gcra_numbers[0] = now.bucket_numbers[0] = number;
    now.tats[0] = tat;
    now.levels[0] = level;
    now.lasts[0] = last;
    printf("store %" PRIu32 " %d %" PRIu64 " | %" PRIu64 " %" PRIu64 "\n", id, number, tat, level,
           last);
}

static void load(void)
{
    store(7, 3, 0, 0, 0); /* plan 3 is not lent */
    acquire(9000, 7, 0, 1);
    peek(9000, 7, 1);
    acquire(9000, 8, 1, 5); /* so the slot is not free, and 9 loses its own, */
    acquire(9000, 9, 1, 1);
    store(0, 255, 0, 0, 0); /* unless it is empty */
    acquire(9000, 9, 2, 1);
    store(7, 0, 29001, 2001, 9000); /* a tick more than can be owed by plan 0, and not by plan 1 */
    acquire(9000, 7, 1, 1);
    store(7, 1, 95000, 0, 9000); /* the most that can be owed by plan 1, too much by plan 0 */
    acquire(9000, 7, 0, 1);
    clear();
}

int main(void)
{
    lists();
    change();
    take_over();
    load();
    return 0;
}
