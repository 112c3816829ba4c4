/*
 * A complete small program over the library, as docs/COLLECTOR.md shows it: it compiles the layout of a weighbridge file, reads
 * records, prints their amounts with the decimal point in its place, edits them back into a record, and shows what the blank weight
 * of a missed lot comes to.
 */
#include <stdio.h>

#include "morvenka.h"

enum { FIELDS = 4 };

/*
 * The weight with two places, the price with two places and a credit mark, the number of the lot, a bonus with two places and its sign
 * punched over the last digit.
 */
static const char layout[] = "ZZ,ZZ9V.99;$$,$$9V.99CR;(3)Z9;9999V9T;";

static const char weighed[] = " 1,250.50" "  $312.62CR" "  42" "00184C";
static const char corrected[] = "     0.75" "    $0.05CR" "  43" "00245}";
static const char missed[] = "         " "  $312.62CR" "  44" "00000{";

static uint8_t plan[MORVENKA_PLAN_MAX];
static size_t plan_length;

/* Whether the answer is a success; prints the refusal if it isn't. */
static int succeeded(const char *what, uint64_t answer)
{
    unsigned number = morvenka_number(answer);
    if (number == MORVENKA_OK)
        return 1;
    printf("%s: refused with %u, %s, at field %u\n", what, number, morvenka_name(number), morvenka_field(answer));
    return 0;
}

/* Prints a number of a row with its point: 125050 at scale 2 is 1250.50, and -5 is -0.05. It has 18 digits at most. */
static void print_amount(int64_t m, size_t scale)
{
    unsigned long long digits = (unsigned long long)(m < 0 ? -m : m), unit = 1;
    for (size_t places = 0; places < scale; places++)
        unit *= 10;
    printf("%s%llu", m < 0 ? "-" : "", digits / unit);
    if (scale > 0)
        printf(".%0*llu", (int)scale, digits % unit);
}

/* Reads a record, prints its amounts and edits them into a record again. */
static void show(const char *what, const char *record, size_t length)
{
    int64_t row[FIELDS];
    uint8_t edited[MORVENKA_RECORD_MAX];
    uint64_t answer = morvenka_plan_read(plan, plan_length, (const uint8_t *)record, length, (uint8_t *)row, sizeof row);
    if (!succeeded(what, answer))
        return;
    for (size_t field = 1; field <= morvenka_length(answer); field++) {
        printf("%s: field %zu is ", what, field);
        print_amount(row[field - 1], morvenka_field_scale(plan, plan_length, field));
        printf("\n");
    }
    answer = morvenka_plan_edit(plan, plan_length, (const uint8_t *)row, sizeof row, edited, sizeof edited);
    if (succeeded(what, answer))
        printf("%s: \"%.*s\"\n", what, (int)morvenka_length(answer), (const char *)edited);
}

int main(void)
{
    uint64_t answer = morvenka_compile((const uint8_t *)layout, sizeof layout - 1, plan, sizeof plan);
    if (!succeeded("layout", answer))
        return 1;
    plan_length = morvenka_length(answer);
    printf("layout: %zu fields, %zu characters\n", morvenka_plan_fields(plan, plan_length), morvenka_plan_record(plan, plan_length));
    show("weighed", weighed, sizeof weighed - 1);
    show("corrected", corrected, sizeof corrected - 1);
    show("missed", missed, sizeof missed - 1);
    return 0;
}
