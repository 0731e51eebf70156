#include "railcadence_tables.h"
#include <stdio.h>
static uint64_t memory[2 * 300];
int main(void)
{
    struct railcadence_plan plan = {3, 1000, 2}; /* 3 units per 1000 ms, up to 2 at once */
    struct railcadence_gcra table;
    railcadence_gcra_init(&table, memory, sizeof memory, 300, &plan, 1);
    puts(railcadence_text(railcadence_gcra_ask(&table, 1000, 7, 0, 1).number));
}
