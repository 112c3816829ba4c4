/*
 * A small program on half cents, as docs/COLLECTOR.md shows it: amounts with three places by pictures with fewer, rounded by morvenka_edit
 * and cut by morvenka_edit_cut; then a statement, whose total is rounded once, of the exact amounts.
 */
#include <stdio.h>
#include <string.h>

#include "morvenka.h"

enum { PLACES = 3, ROOM = MORVENKA_FIELD_MAX + 1 }; /* the places of every amount here, so that 12345 is 12.345; a field as a C string */

static const struct {
    int64_t amount;
    const char *picture;
} examples[] = {
    {12344, "ZZ9V.99CR"}, {12345, "ZZ9V.99CR"}, {-12345, "ZZ9V.99CR"}, {-4, "ZZ9V.99CR"}, {-5, "ZZ9V.99CR"},
    {-4, "ZZ9V.99"},      {-5, "ZZ9V.99"},      {99995, "ZZ9V.99"},    {99995, "Z9V.99"}, {12345, "Z9V.9"},
};

static const int64_t lots[] = {12345, 335, 5125};

typedef uint64_t edit_call(const uint8_t *text, size_t text_len, int64_t m, uint64_t q, uint8_t *out, size_t out_len);

/* The field that the call gives, or the name of the refusal. */
static const char *field_by(edit_call *edit, const char *picture, int64_t amount, char field[ROOM])
{
    uint64_t answer = edit((const uint8_t *)picture, strlen(picture), amount, PLACES, (uint8_t *)field, ROOM - 1);
    if (morvenka_number(answer) != MORVENKA_OK)
        return morvenka_name(morvenka_number(answer));
    field[morvenka_length(answer)] = 0;
    return field;
}

/* Prints the amount with all its places, and by the picture in both ways. */
static void compare(int64_t amount, const char *picture)
{
    char own[ROOM], rounded[ROOM], cut[ROOM];
    printf("%8s | %-9s | %-8s | %-8s |\n", field_by(morvenka_edit, "(3)-9V.999", amount, own), picture,
           field_by(morvenka_edit, picture, amount, rounded), field_by(morvenka_edit_cut, picture, amount, cut));
}

/* Prints a line of the statement, and adds what its field shows, in cents, to *shown. Answers 0 where the amount is refused. */
static int print_line(const char *what, int64_t amount, int64_t *shown)
{
    static const char picture[] = "ZZ9V.99";
    const uint8_t *text = (const uint8_t *)picture;
    uint8_t field[MORVENKA_FIELD_MAX];
    int64_t cents = 0;
    uint64_t answer = morvenka_edit(text, strlen(picture), amount, PLACES, field, sizeof field);
    if (morvenka_number(answer) == MORVENKA_OK) {
        printf("%-6s %.*s\n", what, (int)morvenka_length(answer), (const char *)field);
        answer = morvenka_read(text, strlen(picture), field, morvenka_length(answer), (uint8_t *)&cents, sizeof cents);
    }
    if (morvenka_number(answer) != MORVENKA_OK) {
        printf("%-6s refused: %s\n", what, morvenka_name(morvenka_number(answer)));
        return 0;
    }
    *shown += cents;
    return 1;
}

int main(void)
{
    int64_t exact = 0, shown = 0, total = 0;
    printf("%8s | %-9s | %-8s | %-8s |\n", "amount", "picture", "rounded", "cut");
    for (size_t k = 0; k < sizeof examples / sizeof examples[0]; k++)
        compare(examples[k].amount, examples[k].picture);
    for (size_t k = 0; k < sizeof lots / sizeof lots[0]; k++) {
        exact += lots[k];
        if (!print_line("lot", lots[k], &shown))
            return 1;
    }
    if (!print_line("total", exact, &total))
        return 1;
    printf("The fields of the lots add up to %lld cents, and the total is %lld.\n", (long long)shown, (long long)total);
    return 0;
}
