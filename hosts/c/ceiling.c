/* A host that keeps notes, and the ceiling that it can put in a contract: under a plan of 3 units
 * per 1000 ms with a burst of 2, no shop gets more than 2 + 3 * L / 1000 units in any stretch of L
 * milliseconds, both end moments included. Shop 7 takes all that is there from moment 0 to moment
 * 1000, 5 units, and a sixth must wait; what shop 8 gets is noted by itself. Each line printed is a
 * call (moment, subscriber, plan, and of an acquire the cost) and two answers, GCRA's and the token
 * bucket's: number, subscriber, left, reset, wait. The last line is the sum of the notes.
 *
 *     gcc -std=c11 -o ceiling ceiling.c FOLDER/librailcadence_c.a
 */
#include "railcadence_tables.h"

#include <inttypes.h>
#include <stdio.h>

enum { SHOP = 7, SLOTS = 2, MOST_NOTES = 16 };

static const struct railcadence_plan plan = {3, 1000, 2};
static uint64_t gcra_memory[2 * SLOTS], bucket_memory[3 * SLOTS];
static struct railcadence_gcra gcra;
static struct railcadence_token_bucket bucket;

/* when an engine admitted a shop, and at what cost */
struct note {
    uint64_t moment;
    uint32_t subscriber, cost;
};
struct notes {
    struct note list[MOST_NOTES];
    size_t count;
};
static struct notes gcra_notes, bucket_notes;

static void note(struct notes *notes, struct railcadence_answer answer, struct note admitted)
{
    if (answer.number == RAILCADENCE_ADMITTED && notes->count < MOST_NOTES)
        notes->list[notes->count++] = admitted;
}

/* the units that a shop was admitted from one moment to another, both included */
static uint64_t sum(const struct notes *notes, uint32_t subscriber, uint64_t from, uint64_t until)
{
    uint64_t units = 0;
    for (size_t i = 0; i < notes->count; i++) {
        const struct note *note = &notes->list[i];
        if (note->subscriber == subscriber && from <= note->moment && note->moment <= until)
            units += note->cost;
    }
    return units;
}

/* the burst, and what comes in within so many milliseconds, in whole units */
static uint64_t ceiling(uint64_t length)
{
    return plan.burst + plan.limit * length / plan.period;
}

static void print_answer(struct railcadence_answer answer)
{
    printf(" %" PRIu64 " %" PRIu64 " %" PRIu64 " %" PRIu64 " %" PRIu64, answer.number,
           answer.subscriber, answer.left, answer.reset, answer.wait);
}

static void print(struct railcadence_answer by_gcra, struct railcadence_answer by_bucket)
{
    printf(" ->");
    print_answer(by_gcra);
    printf(" |");
    print_answer(by_bucket);
    printf("\n");
}

static void acquire(uint64_t moment, uint32_t subscriber, uint32_t cost)
{
    struct railcadence_answer by_gcra, by_bucket;
    struct note admitted = {moment, subscriber, cost};
    by_gcra = railcadence_gcra_ask(&gcra, moment, subscriber, 0, cost);
    by_bucket = railcadence_token_bucket_ask(&bucket, moment, subscriber, 0, cost);
    note(&gcra_notes, by_gcra, admitted);
    note(&bucket_notes, by_bucket, admitted);
    printf("acquire %" PRIu64 " %" PRIu32 " 0 %" PRIu32, moment, subscriber, cost);
    print(by_gcra, by_bucket);
}

static void peek(uint64_t moment, uint32_t subscriber)
{
    printf("peek %" PRIu64 " %" PRIu32 " 0", moment, subscriber);
    print(railcadence_gcra_look(&gcra, moment, subscriber, 0),
          railcadence_token_bucket_look(&bucket, moment, subscriber, 0));
}

int main(void)
{
    if (!railcadence_gcra_init(&gcra, gcra_memory, sizeof gcra_memory, SLOTS, &plan, 1) ||
        !railcadence_token_bucket_init(&bucket, bucket_memory, sizeof bucket_memory, SLOTS,
                                       &plan, 1))
        return 1;
    acquire(0, SHOP, 2); /* the whole burst */
    acquire(0, 8, 2);
    acquire(333, SHOP, 1); /* a millisecond too early */
    acquire(334, SHOP, 1);
    peek(500, SHOP);
    acquire(667, SHOP, 1);
    acquire(1000, SHOP, 1); /* the last millisecond counts */
    acquire(1000, SHOP, 1); /* a sixth unit must wait */
    acquire(1000, 8, 2);
    printf("shop %d from 0 to 1000: %" PRIu64 " units | %" PRIu64 " units, and the ceiling is "
           "%" PRIu64 "\n",
           SHOP, sum(&gcra_notes, SHOP, 0, 1000), sum(&bucket_notes, SHOP, 0, 1000),
           ceiling(1000));
    return 0;
}
