/* What a host tells its clients: the status line and the header fields of a response, for requests
 * under document 01's plan and under one of a unit a minute. Each response comes after the request
 * that it answers: moment, subscriber and cost.
 *
 *     gcc -std=c11 -o http http.c FOLDER/librailcadence_c.a
 */
#include "railcadence.h"

#include <inttypes.h>
#include <stdio.h>

#define SLOTS 1

static const uint64_t last_moment = 4398046511103;

struct gate {
    struct railcadence_plan plan;
    uint32_t ids[SLOTS];
    uint8_t plan_numbers[SLOTS];
    uint64_t tats[SLOTS], newest;
};

/* Statuses of refusals are the host's own choice; this one takes its own mistakes for 500. */
static const char *status(uint64_t number)
{
    switch (number) {
    case RAILCADENCE_ADMITTED: return "200 OK";
    case RAILCADENCE_ZERO_COST:
    case RAILCADENCE_COST_ABOVE_BURST: return "400 Bad Request";
    case RAILCADENCE_THROTTLED: return "429 Too Many Requests";
    case RAILCADENCE_NOT_ON_CLOCK: /* there is no time to come back at */
    case RAILCADENCE_OTHER_PLAN:
    case RAILCADENCE_TABLE_FULL: return "503 Service Unavailable";
    default: return "500 Internal Server Error";
    }
}

/* What is left and the reset are known under 0 and 8 alone. */
static void print_fields(uint64_t number, const uint64_t field[RAILCADENCE_HTTP_FIELDS])
{
    printf("RateLimit-Policy: \"shop\";q=%" PRIu64 ";w=%" PRIu64 "\n",
           field[RAILCADENCE_HTTP_QUOTA], field[RAILCADENCE_HTTP_WINDOW]);
    if (number == RAILCADENCE_ADMITTED || number == RAILCADENCE_THROTTLED)
        printf("RateLimit: \"shop\";r=%" PRIu64 ";t=%" PRIu64 "\n",
               field[RAILCADENCE_HTTP_REMAINING], field[RAILCADENCE_HTTP_RESET]);
    if (field[RAILCADENCE_HTTP_RETRY_AFTER] != 0)
        printf("Retry-After: %" PRIu64 "\n", field[RAILCADENCE_HTTP_RETRY_AFTER]);
}

static void respond(struct gate *gate, uint64_t moment, uint32_t subscriber, uint32_t cost)
{
    uint64_t answer[RAILCADENCE_NUMBERS], field[RAILCADENCE_HTTP_FIELDS];
    const struct railcadence_plan *plan = &gate->plan;
    railcadence_gcra_acquire((const uint32_t *)plan, 3, gate->ids, SLOTS,
                             gate->plan_numbers, SLOTS, gate->tats, SLOTS, &gate->newest,
                             moment, subscriber, 0, cost, answer);
    railcadence_http_fields(plan->limit, plan->period, plan->burst, moment, answer, field);
    printf("acquire %" PRIu64 " %" PRIu32 " %" PRIu32 "\n", moment, subscriber, cost);
    printf("HTTP/1.1 %s\n", status(answer[RAILCADENCE_NUMBER]));
    print_fields(answer[RAILCADENCE_NUMBER], field);
    printf("\n");
}

int main(void)
{
    struct gate shop = { .plan = {3, 1000, 2} };
    struct gate slow = { .plan = {60, 3600000, 12} };
    respond(&shop, 1000, 7, 1);
    respond(&shop, 1000, 7, 1);
    respond(&shop, 1000, 7, 1); /* 334 ms to wait: a second */
    respond(&shop, 1333, 7, 1); /* 1 ms to wait: a second too */
    respond(&shop, 1334, 7, 1);
    respond(&shop, 1334, 7, 3); /* more than the burst */
    respond(&shop, 1334, 8, 2); /* the only slot is taken */
    respond(&shop, 1333, 7, 1); /* the clock went back */
    respond(&slow, 0, 7, 12);
    respond(&slow, 500, 7, 1); /* 59,500 ms to wait: 60 seconds */
    respond(&slow, 59500, 7, 1); /* 59 seconds later: not yet */
    respond(&slow, 60500, 7, 1); /* and 60 seconds later */
    respond(&shop, last_moment - 334, 7, 2);
    respond(&shop, last_moment - 334, 7, 1); /* 334 ms to wait, to the clock's last moment */
    respond(&shop, last_moment - 334, 7, 2); /* 667 ms are beyond it: no Retry-After */
    return 0;
}
