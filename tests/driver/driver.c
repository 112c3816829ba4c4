/*
 * The driver: has the compiled library answer case lines, so that another program can judge the answers.
 *
 *     driver [exact] [null] < cases > answers
 *
 * A case line is a call with its arguments, one blank between words, M, Q and PLACE in decimal, byte runs in lower-case hexadecimal
 * and an empty run as `-`. The last word, but for check, is the content of the lent memory before the call:
 *
 *     check TEXT              compile LAYOUT PLAN
 *     edit TEXT M Q OUT       plan_read PLAN RECORD ROW
 *     edit_cut TEXT M Q OUT   plan_edit PLAN ROW RECORD
 *     read TEXT FIELD ROW     totals_add PLAN BATCH PLACE SHEET
 *
 * An answer line is the call's answer in decimal and the content of the lent memory after the call, `-` if that is empty and for
 * check.
 *
 * Every run stands in an allocation of its own, between two guard zones and at changing alignments. After each call the guard
 * zones must be as they were, and so must every run that the call may only read. `exact` leaves out the guard zones: each
 * allocation then has exactly the run's length, and a memory checker sees any access outside it. `null` passes a null pointer for
 * an empty run.
 *
 * Exit 0: all cases are answered. 1: a call crashed or changed what it may not change, or the header doesn't fit the answer.
 * 2: the words or a line can't be used. With MORVENKA_PICTURE_ONLY defined the calls on layouts and plans are left out, for a
 * library without them; a case of such a call is then a line that can't be used.
 */
#include "morvenka.h"

/* Declared here, so that the file also compiles without the C library's headers. */
extern long read(int, void *, size_t);
extern long write(int, const void *, size_t);
extern void *malloc(size_t);
extern void free(void *);
extern void *memchr(const void *, int, size_t);
extern int memcmp(const void *, const void *, size_t);
extern void *memmove(void *, const void *, size_t);
extern int strcmp(const char *, const char *);
extern size_t strlen(const char *);
extern void (*signal(int, void (*)(int)))(int);
extern _Noreturn void _exit(int);

enum { GUARD = 32, MOST_RUNS = 3, MOST_WORDS = 5 };
enum { WRONG = 1, UNUSABLE = 2 };

/* A stretch of the input; no zero byte ends it. */
struct word {
    const char *at;
    size_t length;
};

/* A run of bytes that a call is given. */
struct run {
    struct word word; /* the hexadecimal of its content before the call */
    uint8_t *block;   /* the allocation: front guard bytes, the run, back guard bytes */
    size_t front;
    size_t length;
    size_t back;
};

struct arguments {
    struct run run[MOST_RUNS];
    int64_t m;
    uint64_t q;
    uint64_t place;
};

static int exact;
static int null_for_empty;

/* The case at work, for the messages. */
static struct word line;
static unsigned long line_number;

/* Messages */

static void write_all(int to, const char *bytes, size_t length)
{
    while (length > 0) {
        long written = write(to, bytes, length);
        if (written <= 0)
            _exit(UNUSABLE);
        bytes += written;
        length -= (size_t)written;
    }
}

static void say(const char *text)
{
    write_all(2, text, strlen(text));
}

static void say_number(unsigned long number)
{
    if (number >= 10)
        say_number(number / 10);
    char digit[2] = {(char)('0' + number % 10), 0};
    say(digit);
}

/* Ends the program with a message that shows the case at work. */
static _Noreturn void stop(int status, const char *why)
{
    say("driver: line ");
    say_number(line_number);
    say(": ");
    say(why);
    say(": ");
    write_all(2, line.at, line.length);
    say("\n");
    _exit(status);
}

static void crashed(int number)
{
    (void)number;
    stop(WRONG, "the call crashed");
}

static void catch_crashes(void)
{
    static const int numbers[] = {4, 5, 6, 7, 8, 11}; /* ILL, TRAP, ABRT, BUS, FPE and SEGV of Linux */
    for (size_t k = 0; k < sizeof numbers / sizeof numbers[0]; k++)
        signal(numbers[k], crashed);
}

/* Lines in */

static char input[1 << 20];
static size_t input_from, input_to; /* where the bytes stand that are read and not yet taken */

/* Reads more of the input; 0 if there is no more. */
static int fill(void)
{
    memmove(input, input + input_from, input_to - input_from);
    input_to -= input_from;
    input_from = 0;
    if (input_to == sizeof input)
        stop(UNUSABLE, "the line is too long");
    long got = read(0, input + input_to, sizeof input - input_to);
    if (got < 0)
        stop(UNUSABLE, "the input can't be read");
    input_to += (size_t)got;
    return got > 0;
}

/* Moves on to the next line; 0 if there is none. What follows the last line end is a line where there is anything. */
static int next_line(void)
{
    const char *end;
    line_number++;
    line.length = 0;
    do
        end = memchr(input + input_from, '\n', input_to - input_from);
    while (end == NULL && fill());
    line.at = input + input_from;
    line.length = end != NULL ? (size_t)(end - line.at) : input_to - input_from;
    input_from += line.length + (end != NULL);
    return end != NULL || line.length > 0;
}

/* Splits the line at its blanks and gives the number of words, where MOST_WORDS + 1 stands for too many. */
static size_t split(struct word words[MOST_WORDS])
{
    struct word rest = line;
    for (size_t count = 0; count < MOST_WORDS; count++) {
        const char *blank = memchr(rest.at, ' ', rest.length);
        words[count].at = rest.at;
        if (blank == NULL) {
            words[count].length = rest.length;
            return count + 1;
        }
        words[count].length = (size_t)(blank - rest.at);
        rest.at = blank + 1;
        rest.length -= words[count].length + 1;
    }
    return MOST_WORDS + 1;
}

/* Numbers and runs from words */

static uint64_t number_of(struct word word, uint64_t most)
{
    uint64_t number = 0;
    if (word.length == 0)
        stop(UNUSABLE, "no number");
    for (size_t k = 0; k < word.length; k++) {
        uint64_t digit = (uint64_t)(word.at[k] - '0');
        if (digit > 9 || number > (most - digit) / 10)
            stop(UNUSABLE, "no number");
        number = 10 * number + digit;
    }
    return number;
}

static int64_t signed_number_of(struct word word)
{
    if (word.length == 0 || word.at[0] != '-')
        return (int64_t)number_of(word, INT64_MAX);
    struct word magnitude = {word.at + 1, word.length - 1};
    uint64_t number = number_of(magnitude, (uint64_t)INT64_MAX + 1);
    return number == 0 ? 0 : -(int64_t)(number - 1) - 1;
}

static unsigned nibble(char digit)
{
    if (digit >= '0' && digit <= '9')
        return (unsigned)(digit - '0');
    if (digit >= 'a' && digit <= 'f')
        return (unsigned)(digit - 'a' + 10);
    stop(UNUSABLE, "no hexadecimal");
}

/* Byte k of the run that the word writes. */
static uint8_t byte_of(struct word word, size_t k)
{
    return (uint8_t)(16 * nibble(word.at[2 * k]) + nibble(word.at[2 * k + 1]));
}

static int is_dash(struct word word)
{
    return word.length == 1 && word.at[0] == '-';
}

static uint8_t guard_byte(size_t k)
{
    return (uint8_t)(0x5b + 29 * k);
}

/* The run that the word writes, between its guard zones. */
static struct run run_of(struct word word)
{
    if (!is_dash(word) && (word.length == 0 || word.length % 2 != 0))
        stop(UNUSABLE, "no hexadecimal");
    struct run run = {word, NULL, exact ? 0 : GUARD + line_number % 16, word.length / 2, exact ? 0 : GUARD};
    size_t end = run.front + run.length;
    run.block = malloc(end + run.back);
    if (run.block == NULL)
        stop(UNUSABLE, "no memory");
    for (size_t k = 0; k < run.front; k++)
        run.block[k] = guard_byte(k);
    for (size_t k = 0; k < run.length; k++)
        run.block[run.front + k] = byte_of(word, k);
    for (size_t k = 0; k < run.back; k++)
        run.block[end + k] = guard_byte(k);
    return run;
}

/* What the call gets as the run's pointer. */
static uint8_t *pointer(const struct run *run)
{
    return null_for_empty && run->length == 0 ? NULL : run->block + run->front;
}

static void check_guards(const struct run *run)
{
    for (size_t k = 0; k < run->front; k++)
        if (run->block[k] != guard_byte(k))
            stop(WRONG, "the call changed memory before a run");
    const uint8_t *behind = run->block + run->front + run->length;
    for (size_t k = 0; k < run->back; k++)
        if (behind[k] != guard_byte(k))
            stop(WRONG, "the call changed memory behind a run");
}

static void check_unchanged(const struct run *run)
{
    for (size_t k = 0; k < run->length; k++)
        if (run->block[run->front + k] != byte_of(run->word, k))
            stop(WRONG, "the call changed a run that it may only read");
}

/* Answers out */

static char output[1 << 16];
static size_t output_length;

static void flush(void)
{
    write_all(1, output, output_length);
    output_length = 0;
}

static void put(char c)
{
    if (output_length == sizeof output)
        flush();
    output[output_length++] = c;
}

static void put_number(uint64_t number)
{
    if (number >= 10)
        put_number(number / 10);
    put((char)('0' + number % 10));
}

static void put_bytes(const uint8_t *bytes, size_t length)
{
    if (length == 0)
        put('-');
    for (size_t k = 0; k < length; k++) {
        put("0123456789abcdef"[bytes[k] / 16]);
        put("0123456789abcdef"[bytes[k] % 16]);
    }
}

/* The calls */

#define RUN(k) pointer(&a->run[k]), a->run[k].length

static uint64_t call_check(const struct arguments *a)
{
    return morvenka_check(RUN(0));
}

static uint64_t call_edit(const struct arguments *a)
{
    return morvenka_edit(RUN(0), a->m, a->q, RUN(1));
}

static uint64_t call_edit_cut(const struct arguments *a)
{
    return morvenka_edit_cut(RUN(0), a->m, a->q, RUN(1));
}

static uint64_t call_read(const struct arguments *a)
{
    return morvenka_read(RUN(0), RUN(1), RUN(2));
}

#ifndef MORVENKA_PICTURE_ONLY
static uint64_t call_compile(const struct arguments *a)
{
    return morvenka_compile(RUN(0), RUN(1));
}

static uint64_t call_plan_read(const struct arguments *a)
{
    return morvenka_plan_read(RUN(0), RUN(1), RUN(2));
}

static uint64_t call_plan_edit(const struct arguments *a)
{
    return morvenka_plan_edit(RUN(0), RUN(1), RUN(2));
}

static uint64_t call_totals_add(const struct arguments *a)
{
    return morvenka_totals_add(RUN(0), RUN(1), a->place, RUN(2));
}
#endif

/* A call by its name, and its words: a run that it may only Read, a run Lent to it, M, Q and a Place. */
static const struct call {
    const char *name;
    const char *words;
    uint64_t (*make)(const struct arguments *);
} calls[] = {
    {"check", "R", call_check},
    {"edit", "RMQL", call_edit},
    {"edit_cut", "RMQL", call_edit_cut},
    {"read", "RRL", call_read},
#ifndef MORVENKA_PICTURE_ONLY
    {"compile", "RL", call_compile},
    {"plan_read", "RRL", call_plan_read},
    {"plan_edit", "RRL", call_plan_edit},
    {"totals_add", "RRPL", call_totals_add},
#endif
};

static const struct call *call_of(struct word name)
{
    for (size_t k = 0; k < sizeof calls / sizeof calls[0]; k++)
        if (strlen(calls[k].name) == name.length && memcmp(calls[k].name, name.at, name.length) == 0)
            return &calls[k];
    stop(UNUSABLE, "no call of this library");
}

/* Makes the arguments of the words and gives the number of runs. */
static size_t take_arguments(struct arguments *a, const char *kinds, const struct word *words)
{
    size_t runs = 0;
    for (size_t k = 0; kinds[k] != 0; k++) {
        if (kinds[k] == 'M')
            a->m = signed_number_of(words[k]);
        else if (kinds[k] == 'Q')
            a->q = number_of(words[k], UINT64_MAX);
        else if (kinds[k] == 'P')
            a->place = number_of(words[k], UINT64_MAX);
        else
            a->run[runs++] = run_of(words[k]);
    }
    return runs;
}

/* The header's functions have to take the answer apart without a rest. */
static void check_answer(uint64_t answer)
{
    uint64_t length = morvenka_length(answer);
    if (morvenka_number(answer) + 256 * morvenka_field(answer) + 65536 * length != answer)
        stop(WRONG, "the header's functions don't take the answer apart");
}

/* Answers the case at work. */
static void answer_line(void)
{
    struct word words[MOST_WORDS];
    struct arguments a;
    size_t count = split(words);
    const struct call *call = call_of(words[0]);
    if (count != 1 + strlen(call->words))
        stop(UNUSABLE, "another number of words than the call has");
    size_t runs = take_arguments(&a, call->words, words + 1);
    size_t read_only = call->words[count - 2] == 'L' ? runs - 1 : runs;
    uint64_t answer = call->make(&a);
    check_answer(answer);
    for (size_t k = 0; k < runs; k++)
        check_guards(&a.run[k]);
    for (size_t k = 0; k < read_only; k++)
        check_unchanged(&a.run[k]);
    put_number(answer);
    put(' ');
    for (size_t k = read_only; k < runs; k++)
        put_bytes(a.run[k].block + a.run[k].front, a.run[k].length);
    if (read_only == runs)
        put('-');
    put('\n');
    for (size_t k = 0; k < runs; k++)
        free(a.run[k].block);
}

int main(int count, char **words)
{
    for (int k = 1; k < count; k++) {
        if (strcmp(words[k], "exact") == 0) {
            exact = 1;
        } else if (strcmp(words[k], "null") == 0) {
            null_for_empty = 1;
        } else {
            say("usage: driver [exact] [null] < cases > answers\n");
            return UNUSABLE;
        }
    }
    catch_crashes();
    while (next_line())
        answer_line();
    flush();
    return 0;
}
