/*
 * Morvenka for C: the edited picture fields of mainframe files, checked, written, read and added up, one at a time or a record at a
 * time.
 *
 * This header is all that a C program needs to know; C++ takes it too. ./install puts it and the library where pkg-config finds them,
 * and the library needs the C library alone:
 *
 *     gcc -std=c11 program.c $(pkg-config --cflags --libs morvenka) -o program
 *
 * WORDS
 *   picture  an ASCII text of 1 to 128 bytes, such as ZZ9V.99 or $$,$$9 or (3)9CR or 9999V9T. It has no zero byte at its end.
 *   n        the characters of the picture's field, 1 to 64: its symbols other than V, with the factors written out.
 *   f        the scale of the field: the number of its digits after V, 0 without V.
 *   value    M / 10^q, by a whole number M of 18 digits at most and a scale q of 0 to 18.
 *   layout   a line of pictures with a semicolon behind each: ZZ9V.99;-9; Up to 32 pictures and 4,128 bytes.
 *   record   the fields of a layout, one after another with nothing between: at most 2,048 characters.
 *   plan     a layout compiled: plain bytes to be used for any number of records, and to be kept or sent as they are.
 *   row      one number a field, in eight bytes, little-endian, two's complement: the M of the field's value at its own f.
 *            On a little-endian machine, as x86-64 and Arm under Linux are, an array of int64_t is such a row: pass its address as
 *            a uint8_t * and its size in bytes.
 *   batch    what several records by one layout are with nothing between them: at most 65,536 bytes.
 *   sheet    the totals of records: 97 numbers of eight bytes, as in a row. These are how many records were added, 9,000 at most;
 *            then for each of 32 places of a row the sum of its values; for each the least value; for each the greatest. In a
 *            sheet without records every number is 0. Where an array of int64_t is a row, one of MORVENKA_SHEET_SIZE / 8 of them is a sheet.
 *
 * RUNS OF BYTES
 *   Each run is a pointer and then its length in bytes. The const runs are read and never written.
 *   The run without const is lent: on success the first bytes that the answer needs are written and every byte beyond them keeps
 *   its content, so it may be longer than needed. A refusal changes no byte of it.
 *   The runs of one call must not overlap. A run of length 0 may have any pointer, also a null one: nothing is read or written
 *   there. Every other run is memory of that length.
 *   The library keeps nothing between calls and allocates nothing. It may be called from several threads at once, as long as none
 *   of them writes to memory that another has passed to a call still running.
 *   A call takes less than 2,048 bytes of stack on x86-64 and on 64-bit Arm, and morvenka_totals_add less than 3,072, with what it
 *   calls of the C library bound.
 *
 * ANSWERS
 *   Each call answers one number: number + 256 * field + 65,536 * length. The three functions below take it apart.
 *   Success: number 0, field 0, and the length that is stated at the call.
 *   Refusal: the number of the first reason in the order stated at the call, and length 0. The field is 0, except that the calls
 *   on layouts and plans give the first bad field, counted from 1, with the numbers 1 to 6, 8 and 10.
 *
 * EXAMPLE
 *     const char layout[] = "ZZ9V.99;-9;", record[] = " 12.34-7";
 *     uint8_t plan[MORVENKA_PLAN_MAX];
 *     int64_t row[2];
 *     uint64_t answer = morvenka_compile((const uint8_t *)layout, sizeof layout - 1, plan, sizeof plan);
 *     if (morvenka_number(answer) == MORVENKA_OK)
 *         answer = morvenka_plan_read(plan, morvenka_length(answer), (const uint8_t *)record, sizeof record - 1,
 *                                     (uint8_t *)row, sizeof row);
 *   Then the answer has the number 0 and the length 2, and the row is {1234, -7}: 12.34 and -7. That field 1 has two places is
 *   what morvenka_field_scale tells.
 */
#ifndef MORVENKA_H
#define MORVENKA_H

#include <stddef.h>
#include <stdint.h>

#ifdef __cplusplus
extern "C" {
#endif

/* The version of this header and its library, as text and as numbers; docs/COLLECTOR.md says what changes which number. */
#define MORVENKA_VERSION "3.0.0"
#define MORVENKA_VERSION_MAJOR 3
#define MORVENKA_VERSION_MINOR 0
#define MORVENKA_VERSION_PATCH 0

/* The numbers that come back. */
enum morvenka_numbers {
    MORVENKA_OK = 0,          /* success */
    MORVENKA_TEXT = 1,        /* the picture has 0 or over 128 bytes */
    MORVENKA_SYMBOL = 2,      /* the picture has a byte or a factor that isn't allowed */
    MORVENKA_LONG = 3,        /* the picture has over 64 symbols, V counted, with the factors written out */
    MORVENKA_SHAPE = 4,       /* the picture's symbols don't stand together like this */
    MORVENKA_DIGITS = 5,      /* the picture has no digit, or over 18 */
    MORVENKA_VALUE = 6,       /* M has over 18 digits, or q is over 18 */
    MORVENKA_ROOM = 7,        /* the lent run is shorter than needed */
    MORVENKA_SIZE = 8,        /* too large for the digits before V, or negative with no sign in the picture: judged of what is left
                                 when the value is rounded or cut, and zero is not negative; for totals, a sum too large */
    MORVENKA_LENGTH = 9,      /* the field or record has another length; for editing, the row has not eight bytes a field; for
                                 totals, the batch is too long or isn't of whole records, or the place is none */
    MORVENKA_CONVERSION = 10, /* no value has this field */
    MORVENKA_COUNT = 11,      /* the layout is empty, too long, without its last semicolon, or has over 32 pictures */
    MORVENKA_PLAN = 12,       /* no accepted layout has these bytes as its plan */
    MORVENKA_INPUT = 13,      /* the record lister or the totals program was given over 65,536 bytes;
                                 no call below gives it */
    MORVENKA_FULL = 14        /* the totals sheet has 9,000 records or more, or a count below 0 */
};

/* Sizes in bytes that suffice for anything accepted. */
enum morvenka_sizes {
    MORVENKA_FIELD_MAX = 64,
    MORVENKA_RECORD_MAX = 2048,
    MORVENKA_PLAN_MAX = 1 + 3 * 32 + 2 + 2048,
    MORVENKA_ROW_MAX = 8 * 32,
    MORVENKA_BATCH_MAX = 65536,
    MORVENKA_SHEET_SIZE = 8 * (1 + 3 * 32)
};

/* A totals sheet as an array of int64_t: where its parts begin, and how many records it takes. */
enum morvenka_sheet {
    MORVENKA_SHEET_COUNT = 0,
    MORVENKA_SHEET_SUMS = 1,
    MORVENKA_SHEET_LEAST = 1 + 32,
    MORVENKA_SHEET_GREATEST = 1 + 2 * 32,
    MORVENKA_SHEET_RECORDS = 9000
};

static inline unsigned morvenka_number(uint64_t answer)
{
    return (unsigned)(answer % 256);
}

static inline unsigned morvenka_field(uint64_t answer)
{
    return (unsigned)(answer / 256 % 256);
}

static inline size_t morvenka_length(uint64_t answer)
{
    return (size_t)(answer / 65536);
}

/* The name of a number that comes back: "OK" for 0, "CONVERSION" for 10. "?" for a number that is none of them. */
static inline const char *morvenka_name(unsigned number)
{
    switch (number) {
    case MORVENKA_OK: return "OK";
    case MORVENKA_TEXT: return "TEXT";
    case MORVENKA_SYMBOL: return "SYMBOL";
    case MORVENKA_LONG: return "LONG";
    case MORVENKA_SHAPE: return "SHAPE";
    case MORVENKA_DIGITS: return "DIGITS";
    case MORVENKA_VALUE: return "VALUE";
    case MORVENKA_ROOM: return "ROOM";
    case MORVENKA_SIZE: return "SIZE";
    case MORVENKA_LENGTH: return "LENGTH";
    case MORVENKA_CONVERSION: return "CONVERSION";
    case MORVENKA_COUNT: return "COUNT";
    case MORVENKA_PLAN: return "PLAN";
    case MORVENKA_INPUT: return "INPUT";
    case MORVENKA_FULL: return "FULL";
    default: return "?";
    }
}

/* Layouts and plans */

/*
 * Compiles a layout into the first bytes of plan.
 * Success: the length is the number of the plan's bytes, at most MORVENKA_PLAN_MAX.
 * Refusals in order: COUNT; then the first bad picture, with its field and its own first reason of TEXT, SYMBOL, LONG, SHAPE,
 * DIGITS; ROOM.
 */
uint64_t morvenka_compile(const uint8_t *layout, size_t layout_len, uint8_t *plan, size_t plan_len);

/*
 * Reads a record by a plan into the first places of row, eight bytes a field. plan_len is the plan's own length, as compiling
 * answered it, and not that of a longer run it stands in.
 * Success: the length is the number of fields, so 8 * length bytes are written.
 * Refusals in order: PLAN; LENGTH, of the record; ROOM, if the row has fewer than eight bytes a field; CONVERSION, with the first
 * such field.
 */
uint64_t morvenka_plan_read(const uint8_t *plan, size_t plan_len, const uint8_t *record, size_t record_len,
                            uint8_t *row, size_t row_len);

/*
 * Edits a row by a plan into the first bytes of record. The row must have exactly eight bytes a field.
 * Success: the length is the number of the record's characters, at most MORVENKA_RECORD_MAX.
 * Refusals in order: PLAN; LENGTH, of the row; then the first field with VALUE or SIZE, VALUE before SIZE; ROOM.
 */
uint64_t morvenka_plan_edit(const uint8_t *plan, size_t plan_len, const uint8_t *row, size_t row_len,
                            uint8_t *record, size_t record_len);

/*
 * What a plan tells of its fields. The five functions below trust the bytes and judge nothing: they are for a plan that compiling has
 * written, or that a call on plans has not refused with PLAN. A field is counted from 1, as refusals count it.
 * Of any bytes, none beyond plan_len is read. The answer is 0 where the plan has no such field, and where the run ends before the
 * record length, or for the scale before the end of the field.
 *
 * A plan is the number of fields in one byte; for each field three bytes, which are n, how many of its positions stand before V, and a
 * kind; the record length in two bytes, the high one first; then one byte for each position of the record, its role. The roles of
 * digits are 0 and 1, and 15, 16 and 17 for T, I and R.
 */

/* The number of fields. */
static inline size_t morvenka_plan_fields(const uint8_t *plan, size_t plan_len)
{
    size_t fields = plan_len > 0 ? plan[0] : 0;
    return plan_len >= 3 + 3 * fields ? fields : 0;
}

/* The record length. */
static inline size_t morvenka_plan_record(const uint8_t *plan, size_t plan_len)
{
    size_t fields = morvenka_plan_fields(plan, plan_len);
    return fields > 0 ? 256 * (size_t)plan[1 + 3 * fields] + plan[2 + 3 * fields] : 0;
}

/* The characters of a field: its n. */
static inline size_t morvenka_field_width(const uint8_t *plan, size_t plan_len, size_t field)
{
    return field >= 1 && field <= morvenka_plan_fields(plan, plan_len) ? plan[3 * field - 2] : 0;
}

/* How many characters of the record stand before a field: 0 for field 1. */
static inline size_t morvenka_field_offset(const uint8_t *plan, size_t plan_len, size_t field)
{
    size_t offset = 0;
    if (field > morvenka_plan_fields(plan, plan_len))
        return 0;
    for (size_t before = 1; before < field; before++)
        offset += morvenka_field_width(plan, plan_len, before);
    return offset;
}

/* The scale of a field: its f, which is how many of the last digits of its number in a row stand behind the decimal point. */
static inline size_t morvenka_field_scale(const uint8_t *plan, size_t plan_len, size_t field)
{
    size_t scale = 0, width = morvenka_field_width(plan, plan_len, field);
    size_t first = 3 + 3 * morvenka_plan_fields(plan, plan_len) + morvenka_field_offset(plan, plan_len, field);
    if (width == 0 || plan_len < first + width)
        return 0;
    for (size_t position = plan[3 * field - 1]; position < width; position++) {
        uint8_t role = plan[first + position];
        scale += role <= 1 || (role >= 15 && role <= 17);
    }
    return scale;
}

/* Totals */

/*
 * Adds the record at byte `place` of a batch, counted from 0, to the totals in sheet. The first record's place is 0, and the next one's
 * is a record length further, morvenka_plan_record of the plan.
 * Success: the length is the number of fields, and the first MORVENKA_SHEET_SIZE bytes of sheet are the totals with this record. Where
 * place is the length of the batch there is no record: the answer is 0, its length too, and the sheet stays.
 * Refusals in order: PLAN; ROOM, if sheet has fewer than MORVENKA_SHEET_SIZE bytes; FULL; LENGTH, if the batch has over
 * MORVENKA_BATCH_MAX bytes or ends within a record, or if no record begins at place and it isn't the batch's length; CONVERSION, with
 * the first such field; SIZE, with the first field whose sum is 10^18 or more, plus or minus, as handed in or with this record.
 * Least and greatest are set by the first record, where the count handed in is 0. The places behind the layout's fields stay.
 */
uint64_t morvenka_totals_add(const uint8_t *plan, size_t plan_len, const uint8_t *batch, size_t batch_len,
                             uint64_t place, uint8_t *sheet, size_t sheet_len);

/* One picture */

/*
 * Checks a picture.
 * Success: the length is n.
 * Refusals in order: TEXT, SYMBOL, LONG, SHAPE, DIGITS. Below they are called the picture's own.
 */
uint64_t morvenka_check(const uint8_t *text, size_t text_len);

/*
 * Edits the value M at scale q by a picture into the first bytes of out, rounded to the picture's scale f. Half of one in the last
 * place goes away from zero, under either sign: by ZZ9V.99CR 12.344 is " 12.34  ", 12.345 is " 12.35  " and -12.345 is " 12.35CR".
 * What is rounded to zero is plus; by a picture without a sign, a negative that isn't, as -0.005 by ZZ9V.99, is SIZE. Read back,
 * the field gives M at the scale f.
 * A statement uses this call: what the co-operatives print on it is rounded. Pass the amount with all its places, and round nothing
 * before. Before 3.0.0 this call cut, as morvenka_edit_cut does: MORVENKA_VERSION_MAJOR tells which it is.
 * Success: the length is n, the characters written, at most MORVENKA_FIELD_MAX.
 * Refusals in order: the picture's own; VALUE; SIZE, of the rounded value, so that 99V9 refuses 99.95; ROOM.
 */
uint64_t morvenka_edit(const uint8_t *text, size_t text_len, int64_t m, uint64_t q, uint8_t *out, size_t out_len);

/*
 * As morvenka_edit, but cut toward zero: the digits beyond f are left out. By ZZ9V.99CR 12.345 is " 12.34  ", and 99.95 by 99V9 is "999".
 * What is cut to zero is plus, and SIZE is judged of what the cut leaves.
 * This call is for a field that must be the one that an assignment to the picture in PL/I gives, or morvenka_edit before 3.0.0: to
 * compare with the file of an old run. Where q is f or less nothing is rounded or cut, and the two calls do the same.
 */
uint64_t morvenka_edit_cut(const uint8_t *text, size_t text_len, int64_t m, uint64_t q, uint8_t *out, size_t out_len);

/*
 * Reads a field by its picture; its M, at the picture's scale f, goes into the first eight bytes of row.
 * Either one value and no other has this very field, or the call refuses it: no blank stands for a 9.
 * Success: the length is 1.
 * Refusals in order: the picture's own; LENGTH, if the field has not n characters; ROOM, if the row has fewer than eight bytes;
 * CONVERSION.
 */
uint64_t morvenka_read(const uint8_t *text, size_t text_len, const uint8_t *field, size_t field_len,
                       uint8_t *row, size_t row_len);

#ifdef __cplusplus
}
#endif

#endif
