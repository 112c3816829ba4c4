/*
 * How deep each call of the library goes on the stack, held to a bound.
 *
 * A worker may run on a small stack, so what a call takes of it must not grow unseen. Each call is made here on a painted stack of its
 * own. The lowest byte whose paint is gone says how far down the call went, and what an empty call of the same kind takes is
 * subtracted: what is left lies below the caller's frame, on x86-64 below the return address. That is done for many inputs, accepted and
 * refused, so that every path of a call is taken; the number and the field of each answer are stated, so that a call that refused at
 * once isn't taken for one that worked.
 *
 * Each call is made once on the main stack before it is measured, since a first call of memcpy may run the dynamic linker on the
 * caller's stack. It is measured over two paints that have no byte alike: what is written in the colour of one is seen over the other.
 * The library keeps nothing between calls, so the same figures come out every time.
 *
 * Judging a picture or a plan goes deeper than writing a field does, so that a room for a field need not show in that. Of the calls that
 * edit it is measured besides how deep the stack stands when the first byte of the output is written: the output lies in a page that
 * can't be written, and the signal that the first byte raises has the stack pointer with it.
 *
 * Prints a line a call: what it took at most, and its bound, in bytes; of the calls that edit also where they write from. Exit 0: all are
 * within their bounds. 1: one isn't, or a call answered something else than stated, or the measuring itself is broken; a line on
 * standard error says which.
 */
#define _GNU_SOURCE /* the registers of a context */
#include <signal.h>
#include <stdint.h>
#include <stdio.h>
#include <stdlib.h>
#include <string.h>
#include <sys/mman.h>
#include <ucontext.h>

#include "morvenka.h"

#define COUNT(array) (sizeof(array) / sizeof((array)[0]))

enum { STACK = 1 << 15, STEP = 64, FIELDS = 32, TEXT_MAX = 128, LAYOUT_MAX = 4128, POSITIONS = 64, MOST_DIGITS = 18 };

enum which { CHECK, EDIT, EDIT_CUT, READ, COMPILE, PLAN_READ, PLAN_EDIT, TOTALS_ADD, KNOWN, CALLS };

/* The calls by the kinds of their arguments. */
enum kind { BY_TEXT, BY_VALUE, BY_TWO, BY_THREE, BY_PLACE };
union function {
    uint64_t (*by_text)(const uint8_t *, size_t);
    uint64_t (*by_value)(const uint8_t *, size_t, int64_t, uint64_t, uint8_t *, size_t);
    uint64_t (*by_two)(const uint8_t *, size_t, uint8_t *, size_t);
    uint64_t (*by_three)(const uint8_t *, size_t, const uint8_t *, size_t, uint8_t *, size_t);
    uint64_t (*by_place)(const uint8_t *, size_t, const uint8_t *, size_t, uint64_t, uint8_t *, size_t);
};

/* A call of the library, or one that is measured like them. */
struct call {
    const char *name;
    enum kind kind;
    union function function;
    size_t bound, writes_at;
};

struct run {
    const uint8_t *at;
    size_t length;
};

struct lent {
    uint8_t *at;
    size_t length;
};

/* One call with its arguments; a call takes those that its kind has. What it is lent holds `before` each time, or what is there. */
struct job {
    enum which which;
    struct run first, second;
    int64_t m;
    uint64_t q, place;
    struct lent lent;
    const void *before;
};

/* A picture, how many digits it has in all and behind V, and whether it has a sign. */
struct picture {
    const char *text;
    int digits, places, has_sign;
};

/* Empty calls, which take no frame at -O2; and one of which is known what it takes. */

static uint64_t empty_by_text(const uint8_t *a, size_t b)
{
    return b + (a == NULL);
}

static uint64_t empty_by_value(const uint8_t *a, size_t b, int64_t c, uint64_t d, uint8_t *e, size_t f)
{
    return b + d + f + (uint64_t)c + (a == NULL) + (e == NULL);
}

static uint64_t empty_by_two(const uint8_t *a, size_t b, uint8_t *c, size_t d)
{
    return b + d + (a == NULL) + (c == NULL);
}

static uint64_t empty_by_three(const uint8_t *a, size_t b, const uint8_t *c, size_t d, uint8_t *e, size_t f)
{
    return b + d + f + (a == NULL) + (c == NULL) + (e == NULL);
}

static uint64_t empty_by_place(const uint8_t *a, size_t b, const uint8_t *c, size_t d, uint64_t e, uint8_t *f, size_t g)
{
    return b + d + e + g + (a == NULL) + (c == NULL) + (f == NULL);
}

static const union function empties[] = {
    [BY_TEXT] = {.by_text = empty_by_text},
    [BY_VALUE] = {.by_value = empty_by_value},
    [BY_TWO] = {.by_two = empty_by_two},
    [BY_THREE] = {.by_three = empty_by_three},
    [BY_PLACE] = {.by_place = empty_by_place},
};

enum { KNOWN_ROOM = 1000, KNOWN_BESIDE = 100 };

static uint64_t known(const uint8_t *a, size_t b)
{
    volatile uint8_t room[KNOWN_ROOM];
    for (size_t k = 0; k < sizeof room; k++)
        room[k] = (uint8_t)(b + (a == NULL));
    return room[b % sizeof room] * (uint64_t)0;
}

/*
 * The bounds, in bytes, on x86-64 and on 64-bit Arm: what the call takes there, and 48 to spare; then the same of where it writes from. They
 * guard against rooms that creep into the frames: a field made beside the lent memory and copied, a picture of 64 places handed on by
 * value once more, a table copied to the stack by the function that names it. Each of these takes more than there is to spare. The figures
 * change with the crates and the kit and with nothing else. A bound is raised where the cause is known and wanted.
 */
#if defined(__x86_64__)
#define BOUND(x86, arm) (x86)
#define STACK_POINTER(machine) ((uintptr_t)(machine).gregs[REG_RSP])
#elif defined(__aarch64__)
#define BOUND(x86, arm) (arm)
#define STACK_POINTER(machine) ((uintptr_t)(machine).sp)
#else
#define BOUND(x86, arm) SIZE_MAX /* not measured there: no bound */
#define STACK_POINTER(machine) ((uintptr_t)stack + STACK)
#endif

static const struct call calls[CALLS] = {
    [CHECK] = {"morvenka_check", BY_TEXT, {.by_text = morvenka_check}, BOUND(1224, 1280), 0},
    [EDIT] = {"morvenka_edit", BY_VALUE, {.by_value = morvenka_edit}, BOUND(1208, 1232), BOUND(768, 752)},
    [EDIT_CUT] = {"morvenka_edit_cut", BY_VALUE, {.by_value = morvenka_edit_cut}, BOUND(1208, 1232), BOUND(768, 752)},
    [READ] = {"morvenka_read", BY_THREE, {.by_three = morvenka_read}, BOUND(1400, 1440), 0},
    [COMPILE] = {"morvenka_compile", BY_TWO, {.by_two = morvenka_compile}, BOUND(1512, 1552), 0},
    [PLAN_READ] = {"morvenka_plan_read", BY_THREE, {.by_three = morvenka_plan_read}, BOUND(944, 848), 0},
    [PLAN_EDIT] = {"morvenka_plan_edit", BY_THREE, {.by_three = morvenka_plan_edit}, BOUND(1072, 976), BOUND(608, 576)},
    [TOTALS_ADD] = {"morvenka_totals_add", BY_PLACE, {.by_place = morvenka_totals_add}, BOUND(2544, 2432), 0},
    [KNOWN] = {"a call that is known", BY_TEXT, {.by_text = known}, KNOWN_ROOM + KNOWN_BESIDE, 0},
};

/* What each call has taken at the deepest so far, and where it has written from. */
static size_t deepest[CALLS], written_from[CALLS];

/* The painted stack, and the call that is made on it. A context's function is given no pointer, so its work stands here. */

static _Alignas(16) uint8_t stack[STACK];
static uint8_t paints[2][STACK];
static struct job at_work;
static union function function_at_work;
static volatile uint64_t answer_at_work;

/* A page for outputs, and how far from the top the stack stood when a byte of it was written while it was closed; 0 where none was. */
enum { PAGE = 1 << 16 };
static uint8_t *page;
static volatile size_t stood;

static void work(void)
{
    const struct job *j = &at_work;
    union function f = function_at_work;
    switch (calls[j->which].kind) {
    case BY_TEXT:
        answer_at_work = f.by_text(j->first.at, j->first.length);
        break;
    case BY_VALUE:
        answer_at_work = f.by_value(j->first.at, j->first.length, j->m, j->q, j->lent.at, j->lent.length);
        break;
    case BY_TWO:
        answer_at_work = f.by_two(j->first.at, j->first.length, j->lent.at, j->lent.length);
        break;
    case BY_THREE:
        answer_at_work = f.by_three(j->first.at, j->first.length, j->second.at, j->second.length, j->lent.at, j->lent.length);
        break;
    case BY_PLACE:
        answer_at_work =
            f.by_place(j->first.at, j->first.length, j->second.at, j->second.length, j->place, j->lent.at, j->lent.length);
        break;
    }
}

/* The lent memory as the job has it. */
static void lend(void)
{
    if (at_work.before != NULL)
        memcpy(at_work.lent.at, at_work.before, at_work.lent.length);
}

static _Noreturn void stop(const char *call, const char *what, const char *why)
{
    fprintf(stderr, "deepest: %s, %s: %s\n", call, what, why);
    exit(1);
}

/* Two paints for the stack that have no byte alike. In each of them neighbours differ, so that a frame copied elsewhere is seen. */
static void mix_paints(void)
{
    for (size_t place = 0; place < STACK; place++) {
        paints[0][place] = (uint8_t)((uint32_t)place * UINT32_C(2654435761) >> 16);
        paints[1][place] = (uint8_t)~paints[0][place];
    }
}

/* How far down from its top the stack is used when the function does the work. */
static size_t reach(union function function, const uint8_t paint[STACK])
{
    ucontext_t back, context;
    function_at_work = function;
    lend();
    memcpy(stack, paint, STACK);
    if (getcontext(&context) != 0)
        stop("getcontext", "the painted stack", "it failed");
    context.uc_stack.ss_sp = stack;
    context.uc_stack.ss_size = sizeof stack;
    context.uc_link = &back;
    makecontext(&context, work, 0);
    if (swapcontext(&back, &context) != 0)
        stop("swapcontext", "the painted stack", "it failed");
    size_t lowest = 0;
    while (lowest < STACK && memcmp(stack + lowest, paint + lowest, STEP) == 0)
        lowest += STEP;
    while (lowest < STACK && stack[lowest] == paint[lowest])
        lowest++;
    return STACK - lowest;
}

/* The first byte written to the page: opens it, and the call goes on. */
static void on_write(int number, siginfo_t *info, void *context)
{
    const uint8_t *at = info->si_addr;
    const ucontext_t *c = context;
    if (at < page || at >= page + PAGE || mprotect(page, PAGE, PROT_READ | PROT_WRITE) != 0)
        signal(number, SIG_DFL);
    else
        stood = (size_t)((uintptr_t)stack + STACK - STACK_POINTER(c->uc_mcontext));
}

static void watch_page(void)
{
    static uint8_t own[STACK];
    stack_t apart = {.ss_sp = own, .ss_size = sizeof own};
    struct sigaction action = {.sa_sigaction = on_write, .sa_flags = SA_SIGINFO | SA_ONSTACK};
    page = mmap(NULL, PAGE, PROT_READ | PROT_WRITE, MAP_PRIVATE | MAP_ANONYMOUS, -1, 0);
    if (page == MAP_FAILED || sigaltstack(&apart, NULL) != 0 || sigaction(SIGSEGV, &action, NULL) != 0)
        stop("mmap", "the page for outputs", "it failed");
}

/* How deep the call stands when it writes the first byte, which is that of the page. */
static void measure_write(struct job job, const char *what, size_t beside)
{
    const struct call *call = &calls[job.which];
    if (job.lent.length > PAGE)
        job.lent.length = PAGE;
    job.lent.at = page;
    at_work = job;
    stood = 0;
    if (mprotect(page, PAGE, PROT_READ) != 0)
        stop("mprotect", "the page for outputs", "it failed");
    reach(call->function, paints[0]);
    if (stood == 0)
        stop(call->name, what, "it writes nothing");
    if (stood > beside && written_from[job.which] < stood - beside)
        written_from[job.which] = stood - beside;
}

/* Measures one call; what it is made with is said in the messages. The answer must be this number at this field. */
static uint64_t measure(struct job job, const char *what, unsigned number, unsigned field)
{
    const struct call *call = &calls[job.which];
    size_t beside = 0;
    char why[128];
    at_work = job;
    function_at_work = call->function;
    lend();
    work();
    for (size_t k = 0; k < COUNT(paints); k++) {
        beside = reach(empties[call->kind], paints[k]);
        size_t taken = reach(call->function, paints[k]);
        if (taken == STACK)
            stop(call->name, what, "all of the painted stack is used");
        if (taken > beside && deepest[job.which] < taken - beside)
            deepest[job.which] = taken - beside;
    }
    uint64_t answer = answer_at_work;
    snprintf(why, sizeof why, "it answers %u at field %u, and not %u at field %u", morvenka_number(answer), morvenka_field(answer),
             number, field);
    if (morvenka_number(answer) != number || morvenka_field(answer) != field)
        stop(call->name, what, why);
    if (call->writes_at != 0 && number == MORVENKA_OK)
        measure_write(job, what, beside);
    return answer;
}

/* The calls, with what they answer stated */

static struct run run_of(const char *text)
{
    return (struct run){(const uint8_t *)text, strlen(text)};
}

static size_t check(const char *text, unsigned number)
{
    struct job job = {.which = CHECK, .first = run_of(text)};
    return morvenka_length(measure(job, text, number, 0));
}

/* By one of the two calls that edit a value. */
static void edit_by(enum which which, const char *text, int64_t m, uint64_t q, struct lent out, unsigned number)
{
    struct job job = {.which = which, .first = run_of(text), .m = m, .q = q, .lent = out};
    measure(job, text, number, 0);
}

/* By both, which answer alike. */
static void edit(const char *text, int64_t m, uint64_t q, struct lent out, unsigned number)
{
    edit_by(EDIT_CUT, text, m, q, out, number);
    edit_by(EDIT, text, m, q, out, number);
}

/* By both, each with its own number. */
static void edit_apart(const char *text, int64_t m, uint64_t q, struct lent out, unsigned rounded, unsigned cut)
{
    edit_by(EDIT, text, m, q, out, rounded);
    edit_by(EDIT_CUT, text, m, q, out, cut);
}

static void read_field(const char *text, struct run field, struct lent row, unsigned number)
{
    struct job job = {.which = READ, .first = run_of(text), .second = field, .lent = row};
    measure(job, text, number, 0);
}

static size_t compile(const char *layout, struct lent plan, unsigned number, unsigned field)
{
    struct job job = {.which = COMPILE, .first = run_of(layout), .lent = plan};
    return morvenka_length(measure(job, layout, number, field));
}

static void plan_read(const char *layout, struct run plan, struct run record, struct lent row, unsigned number, unsigned field)
{
    struct job job = {.which = PLAN_READ, .first = plan, .second = record, .lent = row};
    measure(job, layout, number, field);
}

static void plan_edit(const char *layout, struct run plan, struct run row, struct lent record, unsigned number, unsigned field)
{
    struct job job = {.which = PLAN_EDIT, .first = plan, .second = row, .lent = record};
    measure(job, layout, number, field);
}

/* The totals are lent as they stand there, so many bytes of them. */
static void totals_add(const char *layout, struct run plan, struct run batch, uint64_t place, const int64_t *totals, size_t size,
                       unsigned number, unsigned field)
{
    static uint8_t sheet[MORVENKA_SHEET_SIZE];
    struct job job = {.which = TOTALS_ADD, .first = plan, .second = batch, .place = place, .lent = {sheet, size}, .before = totals};
    measure(job, layout, number, field);
}

/* One picture */

static const struct picture pictures[] = {
    {"9", 1, 0, 0},                {"Z", 1, 0, 0},                {"*", 1, 0, 0},                {"T", 1, 0, 1},
    {"I", 1, 0, 1},                {"R", 1, 0, 1},                {"V9", 1, 1, 0},               {"9V", 1, 0, 0},
    {"$V$", 1, 1, 0},              {"-9", 1, 0, 1},               {"9VCR", 1, 0, 1},             {"Z9V.9", 3, 1, 0},
    {"ZZ9V.99", 5, 2, 0},          {"ZZZV.ZZ", 5, 2, 0},          {"ZZZ.VZZ", 5, 2, 0},          {",ZZ", 2, 0, 0},
    {"***9CR", 4, 0, 1},           {"$**CR", 2, 0, 1},            {"**DB", 2, 0, 1},             {"**B**", 4, 0, 0},
    {"$$,$$9", 4, 0, 0},           {"$$B$$9", 4, 0, 0},           {"---9", 3, 0, 1},             {"+++V.++", 4, 2, 1},
    {"SSSVSS", 4, 2, 1},           {"S9V9", 2, 1, 1},             {"9V9-", 2, 1, 1},             {"$999V.999", 6, 3, 0},
    {"9999V9T", 6, 2, 1},          {"ZZI", 3, 0, 1},              {"$$9V.R", 3, 1, 1},           {"**I", 3, 0, 1},
    {"9B9B9V9B9B9B", 6, 3, 0},     {"V(18)9", 18, 18, 0},         {"V(17)9T", 18, 18, 1},        {"(16)9VI9", 18, 2, 1},
    {"(19)$", 18, 0, 0},           {"-(17)9V9", 18, 1, 1},        {"(17)9(46)BT", 18, 0, 1},     {"(17)9(45)/VR", 18, 1, 1},
    {"(18)9(46)/", 18, 0, 0},      {"(18)Z(46)B", 18, 0, 0},      {"(18)*V(45)B", 18, 0, 0},     {"(19)-(45),", 18, 0, 1},
    {"(10)+(44)BV(9)+", 18, 9, 1}, {"S(18)9(45)/", 18, 0, 1},     {"(18)Z(44)BCR", 18, 0, 1},    {"$(18)*(43),DB", 18, 0, 1},
    {"$(17)Z(44)/V9", 18, 1, 0},   {"(9)ZV(45).(9)Z", 18, 9, 0},  {"9V(17)9(45)/", 18, 17, 0},   {"S(9)9V(44).(9)9", 18, 9, 1},
};

/* The largest number of so many digits. */
static int64_t most_of(int digits)
{
    int64_t power = 1;
    for (int k = 0; k < digits; k++)
        power *= 10;
    return power - 1;
}

/* A field that says m, read; and refused where it is too short, where the row is, and where one character is of no field. */
static void read_back(const struct picture *p, const uint8_t *field, size_t n, int64_t m)
{
    int64_t row = m + 1;
    struct lent lent = {(uint8_t *)&row, sizeof row}, less = {(uint8_t *)&row, sizeof row - 1};
    uint8_t damaged[MORVENKA_FIELD_MAX];
    size_t places[] = {0, n / 2, n - 1};
    read_field(p->text, (struct run){field, n}, lent, MORVENKA_OK);
    if (row != m)
        stop("morvenka_read", p->text, "it reads another value than was edited");
    read_field(p->text, (struct run){field, n - 1}, lent, MORVENKA_LENGTH);
    read_field(p->text, (struct run){field, n}, less, MORVENKA_ROOM);
    for (size_t k = 0; k < COUNT(places); k++) {
        memcpy(damaged, field, n);
        damaged[places[k]] = 'x';
        read_field(p->text, (struct run){damaged, n}, lent, MORVENKA_CONVERSION);
    }
}

/*
 * Values with more places than the picture: the largest below 1, which is rounded to 1 where the picture has fewer than 18 places; halves of
 * its last place, and what is less. To the largest that it holds a half is added too, where M has a digit for it.
 */
static void halves(const struct picture *p, struct lent lent)
{
    uint64_t q = (uint64_t)p->places + 1;
    int takes_one = p->digits > p->places;
    edit_apart(p->text, most_of(MOST_DIGITS), MOST_DIGITS, lent, takes_one || q > MOST_DIGITS ? MORVENKA_OK : MORVENKA_SIZE, MORVENKA_OK);
    if (q > MOST_DIGITS)
        return;
    edit(p->text, 4, q, lent, MORVENKA_OK);
    edit(p->text, -4, q, lent, MORVENKA_OK);
    edit(p->text, 5, q, lent, MORVENKA_OK);
    edit_apart(p->text, -5, q, lent, p->has_sign ? MORVENKA_OK : MORVENKA_SIZE, MORVENKA_OK);
    if (p->digits < MOST_DIGITS)
        edit_apart(p->text, 10 * most_of(p->digits) + 5, q, lent, MORVENKA_SIZE, MORVENKA_OK);
}

/* A picture checked, and values at the ends of its range and beyond them. */
static void one_picture(const struct picture *p)
{
    uint8_t out[MORVENKA_FIELD_MAX];
    struct lent lent = {out, sizeof out};
    size_t n = check(p->text, MORVENKA_OK);
    int64_t most = most_of(p->digits), values[] = {most, 1, 0, -1, -most};
    uint64_t q = (uint64_t)p->places;
    for (size_t k = 0; k < COUNT(values); k++) {
        int fits = values[k] >= 0 || p->has_sign;
        edit(p->text, values[k], q, lent, fits ? MORVENKA_OK : MORVENKA_SIZE);
        if (fits)
            read_back(p, out, n, values[k]);
    }
    edit(p->text, most, q, (struct lent){out, n - 1}, MORVENKA_ROOM);
    edit(p->text, most + 1, q, lent, p->digits == MOST_DIGITS ? MORVENKA_VALUE : MORVENKA_SIZE);
    halves(p, lent);
    edit(p->text, 0, MOST_DIGITS + 1, lent, MORVENKA_VALUE);
    edit(p->text, 0, UINT64_MAX, lent, MORVENKA_VALUE);
    edit(p->text, INT64_MIN, 0, lent, MORVENKA_VALUE);
}

/* The symbols that are digits by themselves, and those that drift. */
static const char symbols[] = "9Z*$-+S";

/* A picture of n positions: the symbol, MOST_DIGITS of it where n allows, and in the midst of them the insertion. */
static struct picture sized(char text[TEXT_MAX + 1], size_t n, char symbol, char insertion)
{
    int drifts = strchr("$-+S", symbol) != NULL;
    size_t times = n <= MOST_DIGITS ? n : MOST_DIGITS + (size_t)drifts;
    if (n == times)
        snprintf(text, TEXT_MAX + 1, "(%zu)%c", n, symbol);
    else
        snprintf(text, TEXT_MAX + 1, "(%zu)%c(%zu)%c%c", times - 1, symbol, n - times, insertion, symbol);
    return (struct picture){text, (int)times - drifts, 0, drifts && symbol != '$'};
}

/* Pictures that are refused. */
static const struct {
    const char *text;
    unsigned number;
} bad_pictures[] = {
    {"", MORVENKA_TEXT},               {"9x", MORVENKA_SYMBOL},           {"(0)9", MORVENKA_SYMBOL},
    {"9CRV", MORVENKA_SYMBOL},         {"(64)9(64)9Q", MORVENKA_SYMBOL},  {"(64)9V", MORVENKA_LONG},
    {"(63)9CR", MORVENKA_LONG},        {"9V9V9", MORVENKA_SHAPE},         {"++$$9", MORVENKA_SHAPE},
    {"Z*9", MORVENKA_SHAPE},           {"9Z", MORVENKA_SHAPE},            {"ZVZ9", MORVENKA_SHAPE},
    {"S9CR", MORVENKA_SHAPE},          {"TT", MORVENKA_SHAPE},            {"9$9", MORVENKA_SHAPE},
    {"V$$9", MORVENKA_SHAPE},          {"(32)+(32)-", MORVENKA_SHAPE},    {"(18)9(45)/Z", MORVENKA_SHAPE},
    {"S$", MORVENKA_DIGITS},           {"(64)B", MORVENKA_DIGITS},        {"(64)9", MORVENKA_DIGITS},
    {"(64)-", MORVENKA_DIGITS},        {"(19)9(45)/", MORVENKA_DIGITS},   {"(20)$(44)B", MORVENKA_DIGITS},
};

static void bad_picture(const char *text, unsigned number)
{
    uint8_t field[MORVENKA_FIELD_MAX] = {0}, row[8];
    check(text, number);
    edit(text, 1, 0, (struct lent){field, sizeof field}, number);
    read_field(text, (struct run){field, sizeof field}, (struct lent){row, sizeof row}, number);
}

static void single_pictures(void)
{
    static const char insertions[] = ",./B";
    char text[TEXT_MAX + 2];
    for (size_t k = 0; k < COUNT(pictures); k++)
        one_picture(&pictures[k]);
    for (size_t n = 2; n <= POSITIONS; n++)
        for (size_t k = 0; k < sizeof symbols - 1; k++) {
            struct picture p = sized(text, n, symbols[k], insertions[n % (sizeof insertions - 1)]);
            one_picture(&p);
        }
    for (size_t k = 0; k < COUNT(bad_pictures); k++)
        bad_picture(bad_pictures[k].text, bad_pictures[k].number);
    memset(text, '9', sizeof text);
    text[sizeof text - 1] = 0;
    bad_picture(text, MORVENKA_TEXT);
    bad_picture(text + 1, MORVENKA_LONG);
}

/* Layouts and plans */

/* A layout of some pictures, with its plan and room for its rows and its record. */
struct layout {
    char text[LAYOUT_MAX + 1];
    const struct picture *picture[FIELDS];
    size_t fields, record_length;
    struct run plan;
    uint8_t plan_bytes[MORVENKA_PLAN_MAX], record[MORVENKA_RECORD_MAX];
    int64_t row[FIELDS], got[FIELDS];
};

/* The record as a batch of one, added to an empty sheet; its end; and the refusals of the sheet, the batch and the place. */
static void good_record(const struct layout *l)
{
    struct run batch = {l->record, l->record_length};
    unsigned last = (unsigned)l->fields;
    int64_t totals[MORVENKA_SHEET_SIZE / 8] = {0};
    totals_add(l->text, l->plan, batch, 0, totals, sizeof totals, MORVENKA_OK, 0);
    totals_add(l->text, l->plan, batch, batch.length, totals, sizeof totals, MORVENKA_OK, 0);
    totals_add(l->text, l->plan, batch, 0, totals, sizeof totals - 1, MORVENKA_ROOM, 0);
    totals_add(l->text, l->plan, batch, batch.length + 1, totals, sizeof totals, MORVENKA_LENGTH, 0);
    totals[MORVENKA_SHEET_SUMS + last - 1] = most_of(MOST_DIGITS) + 1;
    totals_add(l->text, l->plan, batch, 0, totals, sizeof totals, MORVENKA_SIZE, last);
    totals[MORVENKA_SHEET_COUNT] = MORVENKA_SHEET_RECORDS;
    totals_add(l->text, l->plan, batch, 0, totals, sizeof totals, MORVENKA_FULL, 0);
}

static void bad_record(const struct layout *l, unsigned field)
{
    struct run batch = {l->record, l->record_length};
    int64_t totals[MORVENKA_SHEET_SIZE / 8] = {0};
    totals_add(l->text, l->plan, batch, 0, totals, sizeof totals, MORVENKA_CONVERSION, field);
}

/* The row as it stands and the record it is edited to, both ways; and the refusals of a good row and of its record. */
static void row_and_record(struct layout *l)
{
    struct run row = {(const uint8_t *)l->row, 8 * l->fields}, record = {l->record, l->record_length};
    struct lent edited = {l->record, sizeof l->record}, got = {(uint8_t *)l->got, sizeof l->got};
    unsigned last = (unsigned)l->fields;
    plan_edit(l->text, l->plan, row, edited, MORVENKA_OK, 0);
    plan_read(l->text, l->plan, record, got, MORVENKA_OK, 0);
    if (memcmp(l->row, l->got, row.length) != 0)
        stop("morvenka_plan_read", l->text, "it reads another row than was edited");
    plan_edit(l->text, l->plan, (struct run){row.at, row.length - 1}, edited, MORVENKA_LENGTH, 0);
    plan_edit(l->text, l->plan, row, (struct lent){l->record, l->record_length - 1}, MORVENKA_ROOM, 0);
    plan_read(l->text, l->plan, (struct run){record.at, record.length - 1}, got, MORVENKA_LENGTH, 0);
    plan_read(l->text, l->plan, record, (struct lent){got.at, 8 * l->fields - 1}, MORVENKA_ROOM, 0);
    good_record(l);
    l->record[l->record_length - 1] = 'x';
    plan_read(l->text, l->plan, record, got, MORVENKA_CONVERSION, last);
    bad_record(l, last);
    l->record[0] = 'x';
    plan_read(l->text, l->plan, record, got, MORVENKA_CONVERSION, 1);
    bad_record(l, 1);
}

/* A value in the last field that is refused. */
static void bad_last_value(struct layout *l, int64_t m, unsigned number)
{
    struct run row = {(const uint8_t *)l->row, 8 * l->fields};
    l->row[l->fields - 1] = m;
    plan_edit(l->text, l->plan, row, (struct lent){l->record, sizeof l->record}, number, (unsigned)l->fields);
}

/* Rows of the largest values, of the smallest and of zeros, and values beyond. */
static void rows(struct layout *l)
{
    const struct picture *last = l->picture[l->fields - 1];
    for (int sign = 1; sign >= -1; sign--) {
        for (size_t k = 0; k < l->fields; k++)
            l->row[k] = sign >= 0 || l->picture[k]->has_sign ? sign * most_of(l->picture[k]->digits) : 0;
        row_and_record(l);
    }
    bad_last_value(l, most_of(MOST_DIGITS) + 1, MORVENKA_VALUE);
    bad_last_value(l, INT64_MIN, MORVENKA_VALUE);
    if (last->digits < MOST_DIGITS)
        bad_last_value(l, most_of(last->digits) + 1, MORVENKA_SIZE);
    if (!last->has_sign)
        bad_last_value(l, -1, MORVENKA_SIZE);
}

static void refused_plan(struct layout *l, size_t length)
{
    struct run plan = {l->plan_bytes, length};
    struct run row = {(const uint8_t *)l->row, 8 * l->fields}, record = {l->record, l->record_length};
    struct lent edited = {l->record, sizeof l->record}, got = {(uint8_t *)l->got, sizeof l->got};
    int64_t totals[MORVENKA_SHEET_SIZE / 8] = {0};
    plan_edit(l->text, plan, row, edited, MORVENKA_PLAN, 0);
    plan_read(l->text, plan, record, got, MORVENKA_PLAN, 0);
    totals_add(l->text, plan, record, 0, totals, sizeof totals, MORVENKA_PLAN, 0);
    totals_add(l->text, plan, record, 0, totals, 0, MORVENKA_PLAN, 0);
}

/* The plan cut short, and with one byte damaged: the number of fields, the first n, the record length, the last role. */
static void bad_plans(struct layout *l)
{
    size_t places[] = {0, 1, 3 * l->fields + 2, l->plan.length - 1};
    refused_plan(l, 0);
    refused_plan(l, 1);
    refused_plan(l, l->plan.length - 1);
    for (size_t k = 0; k < COUNT(places); k++) {
        l->plan_bytes[places[k]] ^= 0x80;
        refused_plan(l, l->plan.length);
        l->plan_bytes[places[k]] ^= 0x80;
    }
}

/* So many pictures of this table, from this one on and round, as a layout. */
static void one_layout(const struct picture *table, size_t size, size_t from, size_t fields)
{
    static struct layout l;
    l.fields = fields;
    l.record_length = 0;
    l.text[0] = 0;
    for (size_t k = 0; k < fields; k++) {
        l.picture[k] = &table[(from + k) % size];
        strcat(strcat(l.text, l.picture[k]->text), ";");
        l.record_length += check(l.picture[k]->text, MORVENKA_OK);
    }
    l.plan = (struct run){l.plan_bytes, compile(l.text, (struct lent){l.plan_bytes, sizeof l.plan_bytes}, MORVENKA_OK, 0)};
    compile(l.text, (struct lent){l.plan_bytes, l.plan.length - 1}, MORVENKA_ROOM, 0);
    rows(&l);
    bad_plans(&l);
}

/* A layout whose last picture is bad, behind so many good ones of 64 positions. */
static void bad_layout(size_t good, const char *bad, unsigned number)
{
    char text[LAYOUT_MAX + 1] = "";
    uint8_t plan[MORVENKA_PLAN_MAX];
    for (size_t k = 0; k < good; k++)
        strcat(text, "(18)Z(44)BCR;");
    strcat(strcat(text, bad), ";");
    compile(text, (struct lent){plan, sizeof plan}, number, (unsigned)good + 1);
}

/* Layouts that are refused for their count: empty, with no semicolon at the end, of 33 pictures, of a byte too many. */
static void bad_counts(void)
{
    char text[LAYOUT_MAX + 2] = "";
    uint8_t plan[MORVENKA_PLAN_MAX];
    struct lent lent = {plan, sizeof plan};
    compile("", lent, MORVENKA_COUNT, 0);
    compile("9;9", lent, MORVENKA_COUNT, 0);
    for (size_t k = 0; k <= FIELDS; k++)
        strcat(text, "9;");
    compile(text, lent, MORVENKA_COUNT, 0);
    memset(text, '9', sizeof text - 1);
    text[sizeof text - 2] = ';';
    compile(text, lent, MORVENKA_COUNT, 0);
}

/* Each picture of the table alone, 32 times, and with the others behind it. */
static void layouts_of(const struct picture *table, size_t size)
{
    for (size_t k = 0; k < size; k++) {
        one_layout(&table[k], 1, 0, 1);
        one_layout(&table[k], 1, 0, FIELDS);
        one_layout(table, size, k, FIELDS);
    }
}

static void layouts(void)
{
    struct picture large[sizeof symbols - 1];
    char texts[COUNT(large)][TEXT_MAX + 1];
    for (size_t k = 0; k < COUNT(large); k++)
        large[k] = sized(texts[k], POSITIONS, symbols[k], 'B');
    layouts_of(large, COUNT(large));
    layouts_of(pictures, COUNT(pictures));
    for (size_t k = 0; k < COUNT(bad_pictures); k++) {
        bad_layout(0, bad_pictures[k].text, bad_pictures[k].number);
        bad_layout(FIELDS - 1, bad_pictures[k].text, bad_pictures[k].number);
    }
    bad_counts();
}

/* That the way of measuring sees a room. */
static void try_known(void)
{
    measure((struct job){.which = KNOWN, .first = run_of("9")}, "a room of 1,000 bytes", 0, 0);
    if (deepest[KNOWN] < KNOWN_ROOM || deepest[KNOWN] > calls[KNOWN].bound)
        stop(calls[KNOWN].name, "a room of 1,000 bytes", "the measure is wrong");
}

/* A figure beside its bound, if there is one; whether it is within it. */
static int show(const char *what, size_t figure, size_t bound)
{
    printf("%s %5zu bytes", what, figure);
    if (bound != SIZE_MAX)
        printf(", at most %zu", bound);
    return figure <= bound;
}

/* What each call took at most, and where it wrote from; whether all are within their bounds. */
static int report(void)
{
    int within[KNOWN], all = 1;
    for (size_t k = 0; k < KNOWN; k++) {
        printf("%-19s ", calls[k].name);
        within[k] = show("", deepest[k], calls[k].bound);
        if (calls[k].writes_at != 0)
            within[k] &= show("; writes from", written_from[k], calls[k].writes_at);
        printf("\n");
    }
    fflush(stdout);
    for (size_t k = 0; k < KNOWN; k++)
        if (!within[k]) {
            fprintf(stderr, "deepest: %s takes more than its bound\n", calls[k].name);
            all = 0;
        }
    return all;
}

int main(void)
{
    mix_paints();
    watch_page();
    try_known();
    single_pictures();
    layouts();
    return !report();
}
