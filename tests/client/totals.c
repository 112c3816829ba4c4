/*
 * A small program on totals, as docs/COLLECTOR.md shows it: each record of a batch is added to a totals sheet, and the totals are printed.
 * A record that is refused is told and passed over, and the sheet stays; at a limit of the sheet the program stops.
 */
#include <stdio.h>

#include "morvenka.h"

/* A weight with two places, and a number of sacks with its sign. */
static const char layout[] = "ZZ9V.99;-9;";

/* Three records. No weight is edited to the last one's first field: 0 would be "  0.00". */
static const char batch[] = " 12.34-7" "  7.00 8" "   .00 8";

int main(void)
{
    uint8_t plan[MORVENKA_PLAN_MAX];
    int64_t sheet[MORVENKA_SHEET_SIZE / 8] = {0}; /* without records every number is 0 */
    const int64_t *sum = sheet + MORVENKA_SHEET_SUMS, *least = sheet + MORVENKA_SHEET_LEAST, *greatest = sheet + MORVENKA_SHEET_GREATEST;
    uint64_t answer = morvenka_compile((const uint8_t *)layout, sizeof layout - 1, plan, sizeof plan);
    if (morvenka_number(answer) != MORVENKA_OK)
        return 1;
    size_t plan_length = morvenka_length(answer);
    for (size_t place = 0; place < sizeof batch - 1; place += morvenka_plan_record(plan, plan_length)) {
        answer = morvenka_totals_add(plan, plan_length, (const uint8_t *)batch, sizeof batch - 1, place, (uint8_t *)sheet, sizeof sheet);
        unsigned number = morvenka_number(answer);
        if (number != MORVENKA_OK)
            printf("byte %zu: refused with %u, %s, at field %u\n", place, number, morvenka_name(number), morvenka_field(answer));
        if (number == MORVENKA_SIZE || number == MORVENKA_FULL)
            break; /* what is behind would be totals of some records, and look like those of all */
    }
    printf("records: %lld\n", (long long)sheet[MORVENKA_SHEET_COUNT]);
    for (size_t k = 0; k < morvenka_plan_fields(plan, plan_length); k++)
        printf("field %zu: sum %lld, least %lld, greatest %lld\n", k + 1, (long long)sum[k], (long long)least[k], (long long)greatest[k]);
    return 0;
}
