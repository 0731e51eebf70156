#include "railcadence_tables.h"
#include <inttypes.h>
#include <stdio.h>

enum { SHOP, MUSEUM };
static const char *const kinds[] = {"shop", "museum"};
static const struct railcadence_plan plans[] = {
    {3, 1000, 2},  /* 3 units per 1000 ms, up to 2 at once */
    {10, 1000, 5}, /* museums pay for more */
};
static uint64_t memory[2 * 300];
static struct railcadence_gcra table;

static void ask(uint64_t moment, uint32_t plan, uint32_t subscriber, uint32_t cost)
{
    struct railcadence_answer answer = railcadence_gcra_ask(&table, moment, subscriber, plan, cost);
    printf("%" PRIu64 ": %s %" PRIu32 " asks for %" PRIu32 ": ", moment, kinds[plan], subscriber,
           cost);
    if (answer.number == RAILCADENCE_ADMITTED)
        printf("admitted, %" PRIu64 " left\n", answer.left);
    else if (answer.number == RAILCADENCE_OTHER_PLAN)
        printf("it still owes under another plan\n");
    else
        printf("%s\n", railcadence_text(answer.number));
}

int main(void)
{
    if (!railcadence_gcra_init(&table, memory, sizeof memory, 300, plans, 2))
        return 1;
    ask(1000, SHOP, 7, 2);
    ask(1000, MUSEUM, 8, 4);
    ask(1200, MUSEUM, 7, 4); /* 7 is a museum now, but owes as a shop: until when? */
    uint64_t reset = railcadence_gcra_look(&table, 1200, 7, SHOP).reset;
    printf("1200: shop 7 looks: nothing is owed from %" PRIu64 " on\n", reset);
    ask(reset, MUSEUM, 7, 4);
    return 0;
}
