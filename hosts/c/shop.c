#include "railcadence_tables.h"
#include <inttypes.h>
#include <stdio.h>

static const struct railcadence_plan plan = {3, 1000, 2}; /* 3 units per 1000 ms, up to 2 at once */
static uint64_t memory[2 * 300]; /* for 300 slots: as many as owe something at once */

int main(void)
{
    struct railcadence_gcra table;
    railcadence_gcra_init(&table, memory, sizeof memory, 300, &plan, 1);
    for (int i = 0; i < 3; i++) { /* at moment 1000, shop 7 asks under plan 0 for 1 */
        struct railcadence_answer answer = railcadence_gcra_ask(&table, 1000, 7, 0, 1);
        if (answer.number == RAILCADENCE_ADMITTED)
            printf("admitted, %" PRIu64 " left\n", answer.left);
        else if (answer.number == RAILCADENCE_THROTTLED)
            printf("try again in %" PRIu64 " ms\n", answer.wait);
        else
            puts(railcadence_text(answer.number));
    }
    return 0;
}
