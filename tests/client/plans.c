/*
 * Tests of what include/morvenka.h has in line: what a plan tells of its fields, the names of the numbers, the version. First by
 * stated layouts; then by pictures whose width and scale the library's own calls show; then by plans cut short and by any bytes, each
 * run in an allocation of its own size, so that a sanitizer sees a byte read beyond it. Compiles as C and as C++.
 * Stops at the first difference with a line that says what differs, and ends with 1.
 */
#include <stdio.h>
#include <stdlib.h>
#include <string.h>

#include "morvenka.h"

enum { MOST = 32 };

static unsigned long compared;

/* What a plan tells of a field. */
struct told {
    size_t offset, width, scale;
};

/* A layout and what its plan must tell. */
struct stated {
    const char *layout;
    size_t fields, record;
    struct told field[4];
};

static const struct stated stated[] = {
    {"9;", 1, 1, {{0, 1, 0}}},
    {"9V;", 1, 1, {{0, 1, 0}}},
    {"V9;", 1, 1, {{0, 1, 1}}},
    {"9VCR;", 1, 3, {{0, 3, 0}}},
    {"$V$;", 1, 2, {{0, 2, 1}}},
    {"Z9.9;", 1, 4, {{0, 4, 0}}},
    {"Z9V.9;", 1, 4, {{0, 4, 1}}},
    {"ZZ9V.99;-9;", 2, 8, {{0, 6, 2}, {6, 2, 0}}},
    {"ZZZV.ZZ;ZZZ.VZZ;", 2, 12, {{0, 6, 2}, {6, 6, 2}}},
    {"S9V9,9B9/9;**V**DB;---V.--;9;", 4, 22, {{0, 9, 4}, {9, 6, 2}, {15, 6, 2}, {21, 1, 0}}},
    {"V(18)9;(18)9(46)/;(17)9V9(45)/;", 3, 145, {{0, 18, 18}, {18, 64, 0}, {82, 63, 1}}},
    {"ZZ,ZZ9V.99;$$,$$9V.99CR;(3)Z9;9999V9T;", 4, 30, {{0, 9, 2}, {9, 11, 2}, {20, 4, 0}, {24, 6, 2}}},
    {"9VT;9VI;9VR;9VCR;", 4, 9, {{0, 2, 1}, {2, 2, 1}, {4, 2, 1}, {6, 3, 0}}},
    {"TV9;V9I9;ZZV.R9;(16)9VT/9;", 4, 29, {{0, 2, 1}, {2, 3, 3}, {5, 5, 2}, {10, 19, 2}}},
};

static const char *const pictures[] = {
    "9",        "999",   "ZZ9",   "ZZZ",      "Z9V.9",     "ZZ9V.99",  "ZZZV.ZZ",   "ZZZ.VZZ",      "***9CR",        "**B**", "$**CR",   "$$,$$9",
    "$$9V.99",  "$V$",   "(19)$", "---9",     "+++V.++",   "SSSVSS",   "S9V9",      "9V9-",         "$999V.999",     "V9",    "V(18)9",  "V.(3)9",
    "9999V9T",  "T",     "ZZI",   "9R",       "V.9R",      "99V9I9",   "$$9V.R",    "V(17)9T",      "(16)9VI9",      "9VT",   "(1)T9",   "**I",
    "9V",       "9VCR",  "9V-",   "Z(5)9VDB", "(3)9/V/99", "ZZ,ZZ9",   ",ZZ",       "9B9B9V9B9B9B", "(18)9(46)/",    "B9V9B", "*V*",     "-(17)9V9",
};

static const char *const names[] = {
    "OK", "TEXT", "SYMBOL", "LONG", "SHAPE", "DIGITS", "VALUE", "ROOM", "SIZE", "LENGTH", "CONVERSION", "COUNT", "PLAN", "INPUT",
    "FULL",
};

#define COUNT(array) (sizeof(array) / sizeof((array)[0]))

static void same(const char *what, size_t got, size_t wanted)
{
    compared++;
    if (got == wanted)
        return;
    printf("plans: %s: %zu, and not %zu\n", what, got, wanted);
    exit(1);
}

/* The plan of a layout that is accepted, and its length. */
static size_t compile(const char *layout, uint8_t plan[MORVENKA_PLAN_MAX])
{
    uint64_t answer = morvenka_compile((const uint8_t *)layout, strlen(layout), plan, MORVENKA_PLAN_MAX);
    same(layout, morvenka_number(answer), MORVENKA_OK);
    return morvenka_length(answer);
}

static void tells(const char *what, const uint8_t *plan, size_t length, size_t field, struct told told)
{
    same(what, morvenka_field_offset(plan, length, field), told.offset);
    same(what, morvenka_field_width(plan, length, field), told.width);
    same(what, morvenka_field_scale(plan, length, field), told.scale);
}

/* That a plan has no field of such a number. */
static void tells_nothing(const char *what, const uint8_t *plan, size_t length, size_t field)
{
    struct told nothing = {0, 0, 0};
    tells(what, plan, length, field, nothing);
}

static void by_stated(void)
{
    uint8_t plan[MORVENKA_PLAN_MAX];
    for (size_t i = 0; i < COUNT(stated); i++) {
        const struct stated *line = &stated[i];
        size_t length = compile(line->layout, plan);
        same(line->layout, morvenka_plan_fields(plan, length), line->fields);
        same(line->layout, morvenka_plan_record(plan, length), line->record);
        for (size_t field = 1; field <= line->fields; field++)
            tells(line->layout, plan, length, field, line->field[field - 1]);
        tells_nothing(line->layout, plan, length, 0);
        tells_nothing(line->layout, plan, length, line->fields + 1);
        tells_nothing(line->layout, plan, length, 256);
        tells_nothing(line->layout, plan, length, SIZE_MAX / 3 + 1);
        tells_nothing(line->layout, plan, length, SIZE_MAX);
    }
}

/* The scale of a picture by the library's calls: the only q at which 1 is edited to a field that reads as 1. */
static size_t scale_of(const char *picture)
{
    const uint8_t *text = (const uint8_t *)picture;
    uint8_t field[MORVENKA_FIELD_MAX];
    for (uint64_t q = 0; q <= 18; q++) {
        int64_t m = 0;
        uint64_t answer = morvenka_edit(text, strlen(picture), 1, q, field, sizeof field);
        if (morvenka_number(answer) == MORVENKA_OK)
            morvenka_read(text, strlen(picture), field, morvenka_length(answer), (uint8_t *)&m, sizeof m);
        if (m == 1)
            return (size_t)q;
    }
    return SIZE_MAX;
}

/* Layouts of `fields` pictures, beginning at each of the pictures in turn. */
static void by_pictures(size_t fields)
{
    uint8_t plan[MORVENKA_PLAN_MAX];
    for (size_t from = 0; from < COUNT(pictures); from++) {
        char layout[1024] = "";
        for (size_t field = 0; field < fields; field++) {
            strcat(layout, pictures[(from + field) % COUNT(pictures)]);
            strcat(layout, ";");
        }
        size_t length = compile(layout, plan), offset = 0;
        for (size_t field = 1; field <= fields; field++) {
            const char *picture = pictures[(from + field - 1) % COUNT(pictures)];
            size_t width = morvenka_length(morvenka_check((const uint8_t *)picture, strlen(picture)));
            struct told told = {offset, width, scale_of(picture)};
            tells(picture, plan, length, field, told);
            offset += width;
        }
        same(layout, morvenka_plan_fields(plan, length), fields);
        same(layout, morvenka_plan_record(plan, length), offset);
    }
}

/* Most fields, of most characters with a V. */
static void by_large(void)
{
    uint8_t plan[MORVENKA_PLAN_MAX];
    char layout[1024] = "";
    for (size_t field = 1; field <= MOST; field++)
        strcat(layout, "(17)9V9(45)B;");
    size_t length = compile(layout, plan);
    same("a large plan: its record length", morvenka_plan_record(plan, length), 2016);
    for (size_t field = 1; field <= MOST; field++) {
        struct told told = {63 * (field - 1), 63, 1};
        tells("a large plan", plan, length, field, told);
    }
}

/* The first bytes of a run in an allocation of their own; of none, a null pointer. */
static uint8_t *alone(const uint8_t *run, size_t length)
{
    uint8_t *copy = length > 0 ? (uint8_t *)malloc(length) : NULL;
    if (length > 0 && copy == NULL)
        exit(2);
    for (size_t i = 0; i < length; i++)
        copy[i] = run[i];
    return copy;
}

/* A plan cut to each shorter length: without its record length it tells nothing, and no scale of a field that is cut. */
static void by_cut_plans(void)
{
    uint8_t plan[MORVENKA_PLAN_MAX];
    for (size_t i = 0; i < COUNT(stated); i++) {
        const struct stated *line = &stated[i];
        size_t whole = compile(line->layout, plan), head = 3 + 3 * line->fields;
        for (size_t length = 0; length < whole; length++) {
            uint8_t *cut = alone(plan, length);
            same(line->layout, morvenka_plan_fields(cut, length), length < head ? 0 : line->fields);
            same(line->layout, morvenka_plan_record(cut, length), length < head ? 0 : line->record);
            for (size_t field = 1; field <= line->fields; field++) {
                struct told told = line->field[field - 1], nothing = {0, 0, 0};
                if (length < head + told.offset + told.width)
                    told.scale = 0;
                tells(line->layout, cut, length, field, length < head ? nothing : told);
            }
            free(cut);
        }
    }
}

/* Any bytes: no answer is more than their bytes can hold, and none is read beyond their length. */
static void by_any_bytes(void)
{
    uint64_t state = 1;
    for (int times = 0; times < 20000; times++) {
        uint8_t bytes[300];
        for (size_t i = 0; i < sizeof bytes; i++) {
            state = state * 6364136223846793005u + 1442695040888963407u;
            bytes[i] = (uint8_t)(state >> 56 & (times % 3 == 0 ? 255 : 7));
        }
        size_t length = (size_t)(state >> 32) % (sizeof bytes + 1);
        uint8_t *run = alone(bytes, length);
        size_t fields = morvenka_plan_fields(run, length);
        same("any bytes: the fields", fields > length / 3, 0);
        same("any bytes: the record length", morvenka_plan_record(run, length) > 65535, 0);
        for (size_t field = 0; field <= fields + 2; field++) {
            same("any bytes: a width", morvenka_field_width(run, length, field) > 255, 0);
            same("any bytes: a scale", morvenka_field_scale(run, length, field) > length, 0);
            same("any bytes: an offset", morvenka_field_offset(run, length, field) > 255 * fields, 0);
        }
        free(run);
    }
}

static void by_names(void)
{
    for (unsigned number = 0; number < 300; number++)
        same(morvenka_name(number), (size_t)strcmp(morvenka_name(number), number < COUNT(names) ? names[number] : "?"), 0);
    same("the last name", (size_t)strcmp(morvenka_name(~0u), "?"), 0);
}

static void by_version(void)
{
    char version[64];
    snprintf(version, sizeof version, "%d.%d.%d", MORVENKA_VERSION_MAJOR, MORVENKA_VERSION_MINOR, MORVENKA_VERSION_PATCH);
    same("the version", (size_t)strcmp(version, MORVENKA_VERSION), 0);
}

int main(void)
{
    by_stated();
    by_pictures(1);
    by_pictures(2);
    by_pictures(MOST);
    by_large();
    by_cut_plans();
    by_any_bytes();
    by_names();
    by_version();
    printf("plans: %lu answers agree\n", compared);
    return 0;
}
