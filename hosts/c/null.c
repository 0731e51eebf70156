/* What has length 0 may be NULL. Each call of an engine is made with such columns, alone and beside
 * columns of one slot, and with no plans; its line has its outcome, and what the columns of one slot
 * and newest hold afterwards, which was 5. A text, columns and an output of length 0 come after
 * that.
 */
#include "railcadence.h"

#include <inttypes.h>
#include <stdio.h>

static const uint32_t plans[3] = {3, 1000, 2};
static uint32_t ids[1] = {5};
static uint8_t numbers[1] = {5};
static uint64_t records[1] = {5}, newest = 5;
static uint64_t out[RAILCADENCE_NUMBERS];

static void print(const char *call)
{
    printf("%s: %" PRIu64 ", %" PRIu32 " %d %" PRIu64 " %" PRIu64 "\n", call,
           out[RAILCADENCE_NUMBER], ids[0], numbers[0], records[0], newest);
}

static void gcra_acquire(void)
{
    railcadence_gcra_acquire(plans, 3, NULL, 0, NULL, 0, NULL, 0, &newest, 1000, 7, 0, 1, out);
    print("GCRA acquires, no column");
    railcadence_gcra_acquire(plans, 3, ids, 1, NULL, 0, NULL, 0, &newest, 1000, 7, 0, 1, out);
    print("GCRA acquires, ids alone");
    railcadence_gcra_acquire(plans, 3, NULL, 0, numbers, 1, NULL, 0, &newest, 1000, 7, 0, 1, out);
    print("GCRA acquires, plan numbers alone");
    railcadence_gcra_acquire(plans, 3, NULL, 0, NULL, 0, records, 1, &newest, 1000, 7, 0, 1, out);
    print("GCRA acquires, tats alone");
    railcadence_gcra_acquire(plans, 3, ids, 1, NULL, 0, records, 1, &newest, 1000, 7, 0, 1, out);
    print("GCRA acquires, no plan numbers");
    railcadence_gcra_acquire(NULL, 0, NULL, 0, NULL, 0, NULL, 0, &newest, 1000, 7, 0, 1, out);
    print("GCRA acquires, no plans and no column");
    railcadence_gcra_acquire(NULL, 0, ids, 1, numbers, 1, records, 1, &newest, 1000, 7, 0, 1, out);
    print("GCRA acquires, no plans");
}

static void gcra(void)
{
    gcra_acquire();
    railcadence_gcra_peek(plans, 3, NULL, 0, NULL, 0, NULL, 0, &newest, 1000, 7, 0, out);
    print("GCRA peeks, no column");
    railcadence_gcra_peek(plans, 3, ids, 1, NULL, 0, records, 1, &newest, 1000, 7, 0, out);
    print("GCRA peeks, no plan numbers");
    railcadence_gcra_peek(NULL, 0, ids, 1, numbers, 1, records, 1, &newest, 1000, 7, 0, out);
    print("GCRA peeks, no plans");
    railcadence_gcra_clear(NULL, 0, NULL, 0, NULL, 0, &newest, out);
    print("GCRA clears, no column");
    railcadence_gcra_clear(ids, 1, NULL, 0, records, 1, &newest, out);
    print("GCRA clears, no plan numbers");
    railcadence_gcra_clear(ids, 1, numbers, 1, NULL, 0, &newest, out);
    print("GCRA clears, no tats");
}

static void token_bucket_acquire(void)
{
    railcadence_token_bucket_acquire(plans, 3, NULL, 0, NULL, 0, NULL, 0, NULL, 0,
                                     &newest, 1000, 7, 0, 1, out);
    print("token bucket acquires, no column");
    railcadence_token_bucket_acquire(plans, 3, ids, 1, NULL, 0, NULL, 0, NULL, 0,
                                     &newest, 1000, 7, 0, 1, out);
    print("token bucket acquires, ids alone");
    railcadence_token_bucket_acquire(plans, 3, ids, 1, numbers, 1, records, 1, NULL, 0,
                                     &newest, 1000, 7, 0, 1, out);
    print("token bucket acquires, no lasts");
    railcadence_token_bucket_acquire(NULL, 0, NULL, 0, NULL, 0, NULL, 0, NULL, 0,
                                     &newest, 1000, 7, 0, 1, out);
    print("token bucket acquires, no plans and no column");
}

static void token_bucket(void)
{
    token_bucket_acquire();
    railcadence_token_bucket_peek(plans, 3, NULL, 0, NULL, 0, NULL, 0, NULL, 0,
                                  &newest, 1000, 7, 0, out);
    print("token bucket peeks, no column");
    railcadence_token_bucket_peek(plans, 3, ids, 1, numbers, 1, records, 1, NULL, 0,
                                  &newest, 1000, 7, 0, out);
    print("token bucket peeks, no lasts");
    railcadence_token_bucket_peek(NULL, 0, ids, 1, numbers, 1, records, 1, NULL, 0,
                                  &newest, 1000, 7, 0, out);
    print("token bucket peeks, no plans and no lasts");
    railcadence_token_bucket_clear(NULL, 0, NULL, 0, NULL, 0, NULL, 0, &newest, out);
    print("token bucket clears, no column");
    railcadence_token_bucket_clear(ids, 1, numbers, 1, records, 1, NULL, 0, &newest, out);
    print("token bucket clears, no lasts");
}

static void print_result(const char *call, const uint64_t result[RAILCADENCE_TEXT_NUMBERS])
{
    printf("%s: %" PRIu64 ", %" PRIu64 " bytes, %" PRIu64 "\n", call, result[RAILCADENCE_RESULT],
           result[RAILCADENCE_BYTES], newest);
}

static void text(void)
{
    static uint32_t lent_ids[1024];
    static uint8_t lent_numbers[1024], lent_out[140];
    static uint64_t lent_tats[1024], result[RAILCADENCE_TEXT_NUMBERS];
    railcadence_transcribe(NULL, 0, lent_ids, 1024, lent_numbers, 1024, lent_tats, 1024, &newest,
                           lent_out, 140, result);
    print_result("no text", result);
    printf("%.*s", (int)result[RAILCADENCE_BYTES], (const char *)lent_out);
    railcadence_transcribe(NULL, 0, NULL, 0, NULL, 0, NULL, 0, &newest, NULL, 0, result);
    print_result("no text, no column", result);
    railcadence_transcribe(NULL, 0, lent_ids, 1024, NULL, 0, lent_tats, 1024, &newest,
                           lent_out, 140, result);
    print_result("no text, no plan numbers", result);
    railcadence_transcribe(NULL, 0, lent_ids, 1024, lent_numbers, 1023, lent_tats, 1024, &newest,
                           lent_out, 140, result);
    print_result("no text, one plan number too few", result);
    railcadence_transcribe(NULL, 0, lent_ids, 1024, lent_numbers, 1024, lent_tats, 1024, &newest,
                           NULL, 0, result);
    print_result("no text, no output", result);
}

int main(void)
{
    gcra();
    token_bucket();
    text();
    return 0;
}
