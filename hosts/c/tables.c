/* railcadence_tables.h, with both engines: how many bytes tables take, which tables can be made,
 * what is asked of them, and what each number means. A line with '|' has GCRA's part before it and
 * the token bucket's after it.
 *
 *     gcc -std=c11 -o tables tables.c FOLDER/librailcadence_c.a
 */
#include "railcadence_tables.h"

#include <inttypes.h>
#include <stdio.h>
#include <string.h>

enum { SLOTS = 3, WORDS = 3 * SLOTS, UNTOUCHED = 0xa5 };

static const struct railcadence_plan shop = {3, 1000, 2}, museum = {10, 1000, 5}, bad = {3, 1000, 0};
static struct railcadence_gcra gcra;
static struct railcadence_token_bucket bucket;
static uint64_t gcra_memory[WORDS], bucket_memory[WORDS];

static void print_sizes(void)
{
    const size_t slots[] = {0, 1, 2, 300, 65535, 65536, SIZE_MAX / 13 + 1, SIZE_MAX};
    for (size_t i = 0; i < sizeof slots / sizeof *slots; i++)
        printf("%zu slots: %zu | %zu bytes\n", slots[i], railcadence_gcra_bytes(slots[i]),
               railcadence_token_bucket_bytes(slots[i]));
    const struct railcadence_plan plans[2] = {shop, museum};
    const uint32_t flat[6] = {3, 1000, 2, 10, 1000, 5};
    printf("two plans are six numbers: %s\n",
           sizeof plans == sizeof flat && memcmp(plans, flat, sizeof flat) == 0 ? "yes" : "no");
}

static size_t touched(const uint64_t *memory)
{
    const unsigned char *bytes = (const unsigned char *)memory;
    size_t count = 0;
    for (size_t i = 0; i < WORDS * sizeof *memory; i++)
        count += bytes[i] != UNTOUCHED;
    return count;
}

static const char *word(bool made)
{
    return made ? "made" : "not made";
}

/* Makes a table of each engine, if it can be, and prints how many bytes were written; and what an
 * ask, a look and a wipe then get. The memory begins `offset` bytes too late, and has `missing`
 * bytes less than it should. */
static void make(const char *what, size_t offset, size_t missing, size_t slots,
                 const struct railcadence_plan *plans, size_t plan_count)
{
    memset(gcra_memory, UNTOUCHED, sizeof gcra_memory);
    memset(bucket_memory, UNTOUCHED, sizeof bucket_memory);
    bool made = railcadence_gcra_init(&gcra, (unsigned char *)gcra_memory + offset,
                                      railcadence_gcra_bytes(slots) - missing, slots, plans,
                                      plan_count);
    printf("%s: %s, %zu bytes", what, word(made), touched(gcra_memory));
    made = railcadence_token_bucket_init(&bucket, (unsigned char *)bucket_memory + offset,
                                         railcadence_token_bucket_bytes(slots) - missing, slots,
                                         plans, plan_count);
    printf(" | %s, %zu bytes", word(made), touched(bucket_memory));
    printf("; asked %" PRIu64 " | %" PRIu64, railcadence_gcra_ask(&gcra, 1000, 7, 0, 1).number,
           railcadence_token_bucket_ask(&bucket, 1000, 7, 0, 1).number);
    printf(", looked %" PRIu64 " | %" PRIu64, railcadence_gcra_look(&gcra, 1000, 7, 0).number,
           railcadence_token_bucket_look(&bucket, 1000, 7, 0).number);
    printf(", wiped %" PRIu64 " | %" PRIu64 "\n", railcadence_gcra_wipe(&gcra).number,
           railcadence_token_bucket_wipe(&bucket).number);
}

static void make_without_memory(void)
{
    bool made = railcadence_gcra_init(&gcra, NULL, SIZE_MAX, SLOTS, &shop, 1);
    printf("no memory: %s", word(made));
    made = railcadence_token_bucket_init(&bucket, NULL, SIZE_MAX, SLOTS, &shop, 1);
    printf(" | %s; asked %" PRIu64 " | %" PRIu64 "\n", word(made),
           railcadence_gcra_ask(&gcra, 1000, 7, 0, 1).number,
           railcadence_token_bucket_ask(&bucket, 1000, 7, 0, 1).number);
}

static void make_all(void)
{
    struct railcadence_plan plans[RAILCADENCE_MOST_PLANS + 1];
    for (size_t i = 0; i < RAILCADENCE_MOST_PLANS + 1; i++)
        plans[i] = shop;
    make("as it should be", 0, 0, SLOTS, plans, 1);
    make("one byte too few", 0, 1, SLOTS, plans, 1);
    make("a byte too late", 1, 0, SLOTS - 1, plans, 1);
    make("four bytes too late", 4, 0, SLOTS - 1, plans, 1);
    make("eight bytes later", 8, 0, SLOTS - 1, plans, 1);
    make_without_memory();
    make("no slots", 0, 0, 0, plans, 1);
    make("65536 slots", 0, 1, 65536, plans, 1);
    make("too many slots to count in bytes", 0, 1, SIZE_MAX / 13 + 1, plans, 1);
    make("plans NULL", 0, 0, SLOTS, NULL, 1);
    make("no plans", 0, 0, SLOTS, plans, 0);
    make("16 plans", 0, 0, SLOTS, plans, RAILCADENCE_MOST_PLANS);
    make("17 plans", 0, 0, SLOTS, plans, RAILCADENCE_MOST_PLANS + 1);
    make("too many plans to count in numbers", 0, 0, SLOTS, plans, SIZE_MAX / 3 + 2);
    plans[15] = bad;
    make("15 plans and a bad one", 0, 0, SLOTS, plans, RAILCADENCE_MOST_PLANS);
    make("15 plans before a bad one", 0, 0, SLOTS, plans, RAILCADENCE_MOST_PLANS - 1);
    make("a bad plan and no slots", 0, 0, 0, &bad, 1);
}

static void print(const char *what, struct railcadence_answer a, struct railcadence_answer b)
{
    printf("%s -> %" PRIu64 " %" PRIu64 " %" PRIu64 " %" PRIu64 " %" PRIu64, what, a.number,
           a.subscriber, a.left, a.reset, a.wait);
    printf(" | %" PRIu64 " %" PRIu64 " %" PRIu64 " %" PRIu64 " %" PRIu64 "\n", b.number,
           b.subscriber, b.left, b.reset, b.wait);
}

static void print_columns(void)
{
    for (size_t i = 0; i < gcra.slots; i++)
        printf("slot %zu: %" PRIu32 " %d %" PRIu64 " | %" PRIu32 " %d %" PRIu64 " %" PRIu64 "\n", i,
               gcra.ids[i], gcra.plan_numbers[i], gcra.tats[i],
               bucket.ids[i], bucket.plan_numbers[i], bucket.levels[i], bucket.lasts[i]);
    printf("newest: %" PRIu64 " | %" PRIu64 "\n", gcra.newest, bucket.newest);
}

static void ask(uint64_t moment, uint32_t subscriber, uint32_t plan, uint32_t cost)
{
    char what[80];
    snprintf(what, sizeof what, "ask %" PRIu64 " %" PRIu32 " %" PRIu32 " %" PRIu32, moment,
             subscriber, plan, cost);
    print(what, railcadence_gcra_ask(&gcra, moment, subscriber, plan, cost),
          railcadence_token_bucket_ask(&bucket, moment, subscriber, plan, cost));
}

static void look(uint64_t moment, uint32_t subscriber, uint32_t plan)
{
    char what[80];
    snprintf(what, sizeof what, "look %" PRIu64 " %" PRIu32 " %" PRIu32, moment, subscriber, plan);
    print(what, railcadence_gcra_look(&gcra, moment, subscriber, plan),
          railcadence_token_bucket_look(&bucket, moment, subscriber, plan));
}

static void use(void)
{
    const struct railcadence_plan plans[2] = {shop, museum};
    railcadence_gcra_init(&gcra, gcra_memory, sizeof gcra_memory, SLOTS, plans, 1);
    railcadence_token_bucket_init(&bucket, bucket_memory, sizeof bucket_memory, SLOTS, plans, 1);
    ask(1000, 7, 0, 2);
    ask(1000, 8, 1, 5); /* plan 1 is not lent yet */
    gcra.plan_count = bucket.plan_count = 2;
    ask(1000, 8, 1, 5);
    ask(1000, 7, 1, 1); /* owes under plan 0 */
    ask(1000, 9, 0, 1);
    ask(1000, 10, 0, 1); /* no slot is free */
    look(1000, 9, 0);
    print_columns();
    print("wipe", railcadence_gcra_wipe(&gcra), railcadence_token_bucket_wipe(&bucket));
    print_columns();
}

int main(void)
{
    print_sizes();
    make_all();
    use();
    for (uint64_t number = 0; number <= 14; number++)
        printf("%" PRIu64 ": %s\n", number, railcadence_text(number));
    printf("%" PRIu64 ": %s\n", UINT64_MAX, railcadence_text(UINT64_MAX));
    return 0;
}
