/* A host that breaks the header's rule on purpose, to try a memory checker: one slice that it lends
 * is an element longer than the memory behind it. The subscriber's slot is the last.
 *
 *     overlong CALL SLICE  makes one call, named as in the header without 'railcadence_'; SLICE is
 *                          plans, ids, plan_numbers or record, the column that is lent last
 *     overlong CALL exact  makes it with enough memory
 */
#include "railcadence.h"

#include <stdlib.h>
#include <string.h>

enum { SLOTS = 4, PLANS_LEN = 6 };

static const uint32_t good_plans[PLANS_LEN] = {3, 1000, 2, 60, 3600000, 12};
static const uint32_t subscriber = SLOTS, cost = 1;
static const uint64_t moment = 1000;

static uint32_t *plans, *ids;
static uint8_t *numbers;
static uint64_t *levels, *record, *newest, *out;

/* calls what is named; 0 if there is no such call */
static int call(const char *name)
{
    if (strcmp(name, "gcra_acquire") == 0)
        railcadence_gcra_acquire(plans, PLANS_LEN, ids, SLOTS, numbers, SLOTS, record, SLOTS,
                                 newest, moment, subscriber, 0, cost, out);
    else if (strcmp(name, "gcra_peek") == 0)
        railcadence_gcra_peek(plans, PLANS_LEN, ids, SLOTS, numbers, SLOTS, record, SLOTS,
                              newest, moment, subscriber, 0, out);
    else if (strcmp(name, "gcra_clear") == 0)
        railcadence_gcra_clear(ids, SLOTS, numbers, SLOTS, record, SLOTS, newest, out);
    else if (strcmp(name, "token_bucket_acquire") == 0)
        railcadence_token_bucket_acquire(plans, PLANS_LEN, ids, SLOTS, numbers, SLOTS,
                                         levels, SLOTS, record, SLOTS,
                                         newest, moment, subscriber, 0, cost, out);
    else if (strcmp(name, "token_bucket_peek") == 0)
        railcadence_token_bucket_peek(plans, PLANS_LEN, ids, SLOTS, numbers, SLOTS,
                                      levels, SLOTS, record, SLOTS,
                                      newest, moment, subscriber, 0, out);
    else if (strcmp(name, "token_bucket_clear") == 0)
        railcadence_token_bucket_clear(ids, SLOTS, numbers, SLOTS, levels, SLOTS, record, SLOTS,
                                       newest, out);
    else
        return 0;
    return 1;
}

/* zeros for so many elements of a slice, or for one less if it is the one that is too short */
static void *lend(const char *slice, const char *name, size_t length, size_t size)
{
    void *memory = calloc(strcmp(slice, name) == 0 ? length - 1 : length, size);
    if (!memory)
        exit(2);
    return memory;
}

int main(int argc, char **argv)
{
    if (argc < 3)
        return 2;
    const char *slice = argv[2];
    plans = lend(slice, "plans", PLANS_LEN, sizeof *plans);
    ids = lend(slice, "ids", SLOTS, sizeof *ids);
    numbers = lend(slice, "plan_numbers", SLOTS, sizeof *numbers);
    levels = lend("", "levels", SLOTS, sizeof *levels);
    record = lend(slice, "record", SLOTS, sizeof *record);
    newest = lend("", "newest", 1, sizeof *newest);
    out = lend("", "out", RAILCADENCE_NUMBERS, sizeof *out);
    for (size_t i = 0; i < PLANS_LEN - (strcmp(slice, "plans") == 0); i++)
        plans[i] = good_plans[i];
    for (uint32_t i = 0; i < SLOTS - (strcmp(slice, "ids") == 0); i++)
        ids[i] = i + 1;
    int known = call(argv[1]);
    free(out);
    free(newest);
    free(record);
    free(levels);
    free(numbers);
    free(ids);
    free(plans);
    return known ? 0 : 2;
}
