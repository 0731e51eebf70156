/* The outcomes' names with their numbers, and numbers that have no name in the header; of each,
 * whether the request may be made again later.
 *
 *     gcc -std=c11 -o outcomes outcomes.c
 */
#include "railcadence.h"

#include <inttypes.h>
#include <stdio.h>

#define OUTCOME(name) {#name, RAILCADENCE_##name}

static const struct {
    const char *name;
    uint64_t number;
} outcomes[] = {
    OUTCOME(ADMITTED),
    OUTCOME(REPORTED),
    OUTCOME(CLEARED),
    OUTCOME(BAD_PLAN),
    OUTCOME(BAD_TABLE),
    OUTCOME(LATE_MOMENT),
    OUTCOME(EARLY_MOMENT),
    OUTCOME(NO_SUBSCRIBER),
    OUTCOME(ZERO_COST),
    OUTCOME(COST_ABOVE_BURST),
    OUTCOME(CORRUPT_RECORD),
    OUTCOME(OTHER_PLAN),
    OUTCOME(NOT_ON_CLOCK),
    OUTCOME(THROTTLED),
    OUTCOME(TABLE_FULL),
    {"unnamed", 10},
    {"unnamed", 14},
    {"unnamed", 15},
    {"unnamed", 16},
    {"unnamed", UINT64_C(4294967304)}, /* 2^32 + 8 */
    {"unnamed", UINT64_MAX},
};

int main(void)
{
    for (size_t i = 0; i < sizeof outcomes / sizeof *outcomes; i++)
        printf("%s %" PRIu64 ": %s\n", outcomes[i].name, outcomes[i].number,
               railcadence_may_retry(outcomes[i].number) ? "try again later" : "do not");
    return 0;
}
