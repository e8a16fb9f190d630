/* The worked cases of T-07: verdicts beside one limit and two, by either method, and refusals in their order. */
#include "book.h"
#include "cases.h"
#include "draw.h"
#include "sides.h"

#include <stdlib.h>
#include <string.h>

enum { NORMAL, TIGHTENED, REDUCED, STOPPED };
enum { LEVEL_II = 5, LETTER_A = 0, LETTER_J = 8, LOT_OF_J = 1000 };

static struct call call;
static struct answer answer;

static void expect(bool holds, const char *what) {
    if (!holds)
        report(what, &call);
}

static void put_lot(enum function function, uint32_t size, uint32_t column, uint32_t lower_column, uint32_t severity) {
    call.function = function;
    call.size = size;
    call.level = LEVEL_II;
    call.column = column;
    call.lower_column = lower_column;
    call.severity = severity;
}

static void put_limits(int32_t limit, int32_t lower, uint32_t sigma) {
    call.limit = limit;
    call.lower_limit = lower;
    call.sigma = sigma;
}

/* Readings as numbers a space apart, each with x and how many of it there are, or one; h is half of a reading. */
static void set_readings(const char *text) {
    char *end;
    call.sample_len = 0;
    for (; *text != '\0'; text = *end == ' ' ? end + 1 : end) {
        if (*text == 'h') {
            call.sample[call.sample_len++] = 0;
            return;
        }
        int reading = (int)strtol(text, &end, 10);
        for (unsigned long n = *end == 'x' ? strtoul(end + 1, &end, 10) : 1; n > 0; n--)
            put_item(&call, (unsigned)reading & 65535);
    }
}

/* Plans in one section of the book, under normal inspection. */
struct plan {
    unsigned letter, column, n, k;
};

static void put_plans(unsigned section, const struct plan *plans, unsigned count) {
    call.book_len = 0;
    for (unsigned i = 0; i < COUNTED_SECTIONS || i == section; i++) {
        put_book(&call, i == section ? count : 0);
        for (unsigned j = 0; i == section && j < count; j++) {
            const unsigned entry[] = {NORMAL, plans[j].letter, plans[j].column, plans[j].n, plans[j].k};
            for (unsigned place = 0; place < 5; place++)
                put_book(&call, entry[place]);
        }
    }
}

/* ---- verdicts. A single limit, upper or lower, stands with its K in the place of the upper one. */

struct verdict_case {
    enum function function;
    unsigned n, k, lower_k;
    const char *readings;
    int32_t limit, lower;
    uint32_t sigma;
    unsigned accepted;
};

static const struct verdict_case known_upper[] = {
    /* 36 of three readings: 3 below a limit of 13, 3,000,000 against K sigma 3 */
    {SIGMA_UPPER, 3, 1000, 0, "10 12 14", 13, 0, 1000, 1},
    {SIGMA_UPPER, 3, 1001, 0, "10 12 14", 13, 0, 1000, 0},
    {SIGMA_UPPER, 3, 1001, 0, "10 12 14", 13, 0, 999, 1},
    {SIGMA_UPPER, 3, 999, 0, "10 12 14", 13, 0, 1000, 1},
    {SIGMA_UPPER, 3, 4000, 0, "10 12 14", 13, 0, 250, 1},
    {SIGMA_UPPER, 3, 4000, 0, "10 12 14", 13, 0, 251, 0},
    {SIGMA_UPPER, 3, 2000, 0, "10 12 14", 13, 0, 500, 1},
    {SIGMA_UPPER, 3, 2000, 0, "10 12 14", 13, 0, 501, 0},
    {SIGMA_UPPER, 3, 2001, 0, "10 12 14", 13, 0, 500, 0},
    /* the readings' own spread counts for nothing */
    {SIGMA_UPPER, 3, 1000, 0, "12 12 12", 13, 0, 1000, 1},
    {SIGMA_UPPER, 3, 1001, 0, "12 12 12", 13, 0, 1000, 0},
    {SIGMA_UPPER, 3, 1000, 0, "-964 0 1000", 13, 0, 1000, 1},
    {SIGMA_UPPER, 3, 1001, 0, "-964 0 1000", 13, 0, 1000, 0},
    /* no margin is enough for no K and no sigma; one below 0 is not squared */
    {SIGMA_UPPER, 3, 1, 0, "10 12 14", 12, 0, 1, 0},
    {SIGMA_UPPER, 3, 1, 0, "20 20 20", 20, 0, 1, 0},
    {SIGMA_UPPER, 3, 1, 0, "10 12 14", 11, 0, 1, 0},
    {SIGMA_UPPER, 3, 1000, 0, "10 12 14", 11, 0, 1000, 0},
    {SIGMA_UPPER, 3, 1, 0, "0 1 0", 0, 0, 1, 0},
    {SIGMA_UPPER, 3, 1, 0, "0 -1 0", 0, 0, 1, 1},
    {SIGMA_UPPER, 3, 4000, 0, "0 -1 0", 0, 0, 83, 1},
    {SIGMA_UPPER, 3, 4000, 0, "0 -1 0", 0, 0, 84, 0},
    /* one unit of one reading, each way */
    {SIGMA_UPPER, 2, 1000, 0, "0 1", 1, 0, 500, 1},
    {SIGMA_UPPER, 2, 1000, 0, "1 1", 1, 0, 500, 0},
    {SIGMA_UPPER, 2, 1000, 0, "0 0", 1, 0, 500, 1},
    {SIGMA_UPPER, 2, 1000, 0, "0 1", 1, 0, 501, 0},
    {SIGMA_UPPER, 2, 1000, 0, "0 0", 1, 0, 1000, 1},
    {SIGMA_UPPER, 2, 1001, 0, "0 0", 1, 0, 1000, 0},
    {SIGMA_UPPER, 50, 4000, 0, "996x50", 1000, 0, 1000, 1},
    {SIGMA_UPPER, 50, 4000, 0, "996x49 997", 1000, 0, 1000, 0},
    {SIGMA_UPPER, 50, 4000, 0, "995 996x49", 1000, 0, 1000, 1},
    {SIGMA_UPPER, 50, 4000, 0, "-1000x50", -996, 0, 1000, 1},
    {SIGMA_UPPER, 50, 4000, 0, "-999 -1000x49", -996, 0, 1000, 0},
    /* the ends, and margins that 32 bits do not hold a million times: 4,295, 2,148, 8,590 and -2,148 */
    {SIGMA_UPPER, 50, 4000, 0, "-1000x50", 1000, 0, 1000, 1},
    {SIGMA_UPPER, 50, 1, 0, "1000x50", -1000, 0, 1, 0},
    {SIGMA_UPPER, 50, 4000, 0, "914x45 915x5", 1000, 0, 1000, 1},
    {SIGMA_UPPER, 50, 4000, 0, "957x48 958x2", 1000, 0, 1000, 1},
    {SIGMA_UPPER, 50, 4000, 0, "828x40 829x10", 1000, 0, 1000, 1},
    {SIGMA_UPPER, 50, 4000, 0, "-957x48 -958x2", -1000, 0, 1000, 0},
};

static const struct verdict_case known_lower[] = {
    {SIGMA_LOWER, 3, 1000, 0, "10 12 14", 11, 0, 1000, 1},
    {SIGMA_LOWER, 3, 1001, 0, "10 12 14", 11, 0, 1000, 0},
    {SIGMA_LOWER, 3, 1001, 0, "10 12 14", 11, 0, 999, 1},
    {SIGMA_LOWER, 3, 4000, 0, "10 12 14", 11, 0, 250, 1},
    {SIGMA_LOWER, 3, 4000, 0, "10 12 14", 11, 0, 251, 0},
    {SIGMA_LOWER, 3, 1, 0, "10 12 14", 12, 0, 1, 0},
    {SIGMA_LOWER, 3, 1, 0, "10 12 14", 13, 0, 1, 0},
    {SIGMA_LOWER, 3, 1000, 0, "10 12 14", 13, 0, 1000, 0},
    {SIGMA_LOWER, 3, 4000, 0, "10 12 14", -1000, 0, 1000, 1},
    {SIGMA_LOWER, 3, 1, 0, "10 12 14", 1000, 0, 1, 0},
    {SIGMA_LOWER, 2, 1000, 0, "0 -1", -1, 0, 500, 1},
    {SIGMA_LOWER, 2, 1000, 0, "-1 -1", -1, 0, 500, 0},
    {SIGMA_LOWER, 2, 1000, 0, "0 0", -1, 0, 500, 1},
    {SIGMA_LOWER, 2, 1000, 0, "0 -1", -1, 0, 501, 0},
    {SIGMA_LOWER, 50, 4000, 0, "-996x50", -1000, 0, 1000, 1},
    {SIGMA_LOWER, 50, 4000, 0, "-996x49 -997", -1000, 0, 1000, 0},
    {SIGMA_LOWER, 50, 4000, 0, "1000x50", 996, 0, 1000, 1},
    {SIGMA_LOWER, 50, 4000, 0, "999 1000x49", 996, 0, 1000, 0},
    {SIGMA_LOWER, 50, 4000, 0, "1000x50", -1000, 0, 1000, 1},
    {SIGMA_LOWER, 50, 1, 0, "-1000x50", 1000, 0, 1, 0},
    {SIGMA_LOWER, 50, 4000, 0, "-914x45 -915x5", -1000, 0, 1000, 1},
    {SIGMA_LOWER, 50, 4000, 0, "957x48 958x2", 1000, 0, 1000, 0},
};

static const struct verdict_case known_both[] = {
    /* 3 on either side */
    {SIGMA_BOTH, 3, 1000, 1000, "10 12 14", 13, 11, 1000, 1},
    {SIGMA_BOTH, 3, 1001, 1000, "10 12 14", 13, 11, 1000, 0},
    {SIGMA_BOTH, 3, 1000, 1001, "10 12 14", 13, 11, 1000, 0},
    {SIGMA_BOTH, 3, 1001, 1001, "10 12 14", 13, 11, 1000, 0},
    {SIGMA_BOTH, 3, 1001, 1001, "10 12 14", 13, 11, 999, 1},
    {SIGMA_BOTH, 3, 2000, 2000, "10 12 14", 13, 11, 500, 1},
    {SIGMA_BOTH, 3, 2000, 2001, "10 12 14", 13, 11, 500, 0},
    {SIGMA_BOTH, 3, 2001, 2000, "10 12 14", 13, 11, 500, 0},
    {SIGMA_BOTH, 3, 2000, 2000, "10 12 14", 13, 11, 501, 0},
    /* 6 above and 3 below, each with its own K; and exchanged */
    {SIGMA_BOTH, 3, 4000, 2000, "10 12 14", 14, 11, 500, 1},
    {SIGMA_BOTH, 3, 2000, 4000, "10 12 14", 14, 11, 500, 0},
    {SIGMA_BOTH, 3, 2000, 4000, "10 12 14", 13, 10, 500, 1},
    {SIGMA_BOTH, 3, 4000, 2000, "10 12 14", 13, 10, 500, 0},
    /* one side has no margin, or one below 0; the other all that there can be */
    {SIGMA_BOTH, 3, 1, 1, "10 12 14", 12, -1000, 1, 0},
    {SIGMA_BOTH, 3, 1, 1, "10 12 14", 1000, 12, 1, 0},
    {SIGMA_BOTH, 3, 1, 1, "10 12 14", 11, -1000, 1, 0},
    {SIGMA_BOTH, 3, 1, 1, "10 12 14", 1000, 13, 1, 0},
    {SIGMA_BOTH, 3, 4000, 4000, "10 12 14", 16, 8, 1000, 1},
    {SIGMA_BOTH, 3, 4000, 4000, "10 12 14", 16, 9, 1000, 0},
    {SIGMA_BOTH, 3, 4000, 4000, "10 12 14", 15, 8, 1000, 0},
    {SIGMA_BOTH, 3, 4000, 4000, "10 12 15", 16, 8, 1000, 0},
    {SIGMA_BOTH, 3, 4000, 4000, "9 12 14", 16, 8, 1000, 0},
    /* readings below 0, and limits next to each other */
    {SIGMA_BOTH, 3, 4000, 2000, "-10 -12 -14", -10, -13, 500, 1},
    {SIGMA_BOTH, 2, 1000, 1000, "-1 0", 0, -1, 500, 1},
    {SIGMA_BOTH, 2, 1000, 1000, "-1 -1", 0, -1, 500, 0},
    {SIGMA_BOTH, 2, 1000, 1000, "0 0", 0, -1, 500, 0},
    {SIGMA_BOTH, 2, 1001, 1000, "-1 0", 0, -1, 500, 0},
    {SIGMA_BOTH, 2, 1000, 1001, "-1 0", 0, -1, 500, 0},
    /* the ends */
    {SIGMA_BOTH, 50, 4000, 4000, "-1000x25 1000x25", 1000, -1000, 1000, 1},
    {SIGMA_BOTH, 50, 4000, 4000, "996x50", 1000, -1000, 1000, 1},
    {SIGMA_BOTH, 50, 4000, 4000, "-996x50", 1000, -1000, 1000, 1},
    {SIGMA_BOTH, 50, 4000, 4000, "996x49 997", 1000, -1000, 1000, 0},
    {SIGMA_BOTH, 50, 4000, 4000, "-996x49 -997", 1000, -1000, 1000, 0},
    {SIGMA_BOTH, 50, 1, 1, "1000x50", 1000, 999, 1, 0},
    {SIGMA_BOTH, 50, 1, 1, "-1000x50", -999, -1000, 1, 0},
};

static const struct verdict_case both[] = {
    /* document 01: beside 10, 12, 14 a margin of 21 is enough for K 3,500, one of 24 for 4,000; one of 3 for 500 */
    {BOTH, 3, 3500, 3500, "10 12 14", 19, 5, 0, 1},
    {BOTH, 3, 3501, 3500, "10 12 14", 19, 5, 0, 0},
    {BOTH, 3, 3500, 3501, "10 12 14", 19, 5, 0, 0},
    {BOTH, 3, 3501, 3501, "10 12 14", 19, 5, 0, 0},
    {BOTH, 3, 4000, 3500, "10 12 14", 20, 5, 0, 1},
    {BOTH, 3, 3500, 4000, "10 12 14", 19, 4, 0, 1},
    {BOTH, 3, 3500, 4000, "10 12 14", 20, 5, 0, 0},
    {BOTH, 3, 4000, 3500, "10 12 14", 19, 4, 0, 0},
    {BOTH, 3, 500, 500, "10 12 14", 13, 11, 0, 1},
    {BOTH, 3, 501, 500, "10 12 14", 13, 11, 0, 0},
    {BOTH, 3, 500, 501, "10 12 14", 13, 11, 0, 0},
    {BOTH, 3, 500, 3500, "10 12 14", 13, 5, 0, 1},
    {BOTH, 3, 3500, 500, "10 12 14", 13, 5, 0, 0},
    /* one side has no margin, or one below 0, which is not squared; the other all that there can be */
    {BOTH, 3, 1, 1, "10 12 14", 12, -1000, 0, 0},
    {BOTH, 3, 1, 1, "10 12 14", 1000, 12, 0, 0},
    {BOTH, 3, 1, 1, "10 12 14", 11, -1000, 0, 0},
    {BOTH, 3, 1, 1, "10 12 14", 1000, 13, 0, 0},
    {BOTH, 3, 4000, 4000, "10 12 14", 1000, -1000, 0, 1},
    /* equal readings need no margin */
    {BOTH, 3, 4000, 4000, "20 20 20", 20, 19, 0, 1},
    {BOTH, 3, 4000, 4000, "20 20 20", 21, 20, 0, 1},
    {BOTH, 3, 1, 1, "20 20 20", 19, 18, 0, 0},
    {BOTH, 3, 1, 1, "20 20 20", 22, 21, 0, 0},
    {BOTH, 50, 4000, 4000, "1000x50", 1000, 999, 0, 1},
    {BOTH, 50, 4000, 4000, "-1000x50", -999, -1000, 0, 1},
    {BOTH, 3, 3500, 4000, "-10 -12 -14", -5, -20, 0, 1},
    {BOTH, 3, 4000, 3500, "-10 -12 -14", -5, -20, 0, 0},
    /* 50,000 on either side, with products of 57 bits: K squared is at most 980,000 */
    {BOTH, 50, 989, 989, "-1000x25 1000x25", 1000, -1000, 0, 1},
    {BOTH, 50, 990, 989, "-1000x25 1000x25", 1000, -1000, 0, 0},
    {BOTH, 50, 989, 990, "-1000x25 1000x25", 1000, -1000, 0, 0},
    {BOTH, 50, 4000, 4000, "-1000x25 1000x25", 1000, -1000, 0, 0},
};

static void judge(const struct verdict_case *v, uint32_t column, uint32_t lower_column) {
    const struct plan plans[] = {{LETTER_J, column, v->n, v->k}, {LETTER_J, lower_column, v->n, v->lower_k}};
    const struct plan turned[] = {plans[1], plans[0]};
    bool single = !has_two_limits(v->function) || column == lower_column;
    put_lot(v->function, LOT_OF_J, column, lower_column, NORMAL);
    put_limits(v->limit, v->lower, v->sigma);
    put_plans(section_of(v->function), column > lower_column && !single ? turned : plans, single ? 1 : 2);
    set_readings(v->readings);
    expect(run_both(&call, &answer) == 0, "T-07: a worked sample is judged");
    expect(answer.accepted == v->accepted, "T-07: the verdict on a worked sample");
    expect(answer.used == v->n, "T-07: all readings of a worked sample are used");
}

/* The columns in either order; and one for both sides, where they have one K. */
static void judge_all(const struct verdict_case *cases, size_t count) {
    for (size_t i = 0; i < count; i++) {
        judge(&cases[i], 5, 12);
        judge(&cases[i], 15, 0);
        if (cases[i].k == cases[i].lower_k)
            judge(&cases[i], 9, 9);
    }
}

static void worked_verdicts(void) {
    judge_all(known_upper, sizeof known_upper / sizeof *known_upper);
    judge_all(known_lower, sizeof known_lower / sizeof *known_lower);
    judge_all(known_both, sizeof known_both / sizeof *known_both);
    judge_all(both, sizeof both / sizeof *both);
}

/* ---- refusals, on a book that has these plans in the function's section, and others in the other one */

static const struct plan plans[] = {{LETTER_A, 5, 3, 1000},  {LETTER_A, 9, 2, 1000},  {LETTER_A, 12, 3, 1000},
                                    {LETTER_A, 14, 8, 1000}, {LETTER_J, 2, 3, 1000},  {LETTER_J, 5, 3, 1000},
                                    {LETTER_J, 9, 4, 1000},  {LETTER_J, 12, 3, 1000}, {LETTER_J, 14, 2, 1000},
                                    {LETTER_J, 15, 3, 1000}};

/* Where the function has no plan, one of three readings. */
static const struct plan others[] = {{LETTER_A, 7, 3, 1000}, {LETTER_J, 5, 3, 4000}, {LETTER_J, 7, 3, 1000}};

static void put_list(const struct plan *list, unsigned count) {
    put_book(&call, count);
    for (unsigned i = 0; i < count; i++) {
        const unsigned entry[] = {NORMAL, list[i].letter, list[i].column, list[i].n, list[i].k};
        for (unsigned place = 0; place < 5; place++)
            put_book(&call, entry[place]);
    }
}

static void put_their_book(void) {
    bool sigma = is_sigma(call.function);
    call.book_len = 0;
    for (unsigned i = 0; i < VARIABLES_SECTION; i++)
        put_book(&call, 0);
    put_list(sigma ? others : plans, sigma ? 3 : sizeof plans / sizeof *plans);
    put_list(sigma ? plans : others, sigma ? sizeof plans / sizeof *plans : 3);
}

/* Of all four functions, or of those with two limits, or of those with a known spread. */
enum whom { ALL, TWO_LIMITS, KNOWN };

struct refusal_case {
    const char *what;
    enum whom whom;
    uint32_t size, column, lower_column, severity;
    const char *readings;
    int32_t limit, lower;
    uint32_t sigma;
    unsigned number;
};

static const struct refusal_case refusals[] = {
    {"nothing is wrong", ALL, 1000, 5, 12, 0, "0 0 0", 5, -5, 1, 0},
    {"nor at the ends", ALL, 1000, 15, 2, 0, "-1000 1000 0", 1000, -1000, 1000, 0},
    {"nor with one column", ALL, 1000, 5, 5, 0, "0 0 0", 5, -5, 1, 0},

    {"a column over 25", ALL, 1000, 26, 12, 0, "0 0 0", 5, -5, 1, 4},
    {"a column that is 5 in a byte", ALL, 1000, 256 + 5, 12, 0, "0 0 0", 5, -5, 1, 4},
    {"a column that is 5 in 16 bits", ALL, 1000, 65536 + 5, 12, 0, "0 0 0", 5, -5, 1, 4},
    {"the largest column", ALL, 1000, UINT32_MAX, 12, 0, "0 0 0", 5, -5, 1, 4},
    {"a lower column over 25", TWO_LIMITS, 1000, 5, 26, 0, "0 0 0", 5, -5, 1, 4},
    {"a lower column that is 12 in a byte", TWO_LIMITS, 1000, 5, 256 + 12, 0, "0 0 0", 5, -5, 1, 4},
    {"a lower column that is 12 in 16 bits", TWO_LIMITS, 1000, 5, 65536 + 12, 0, "0 0 0", 5, -5, 1, 4},
    {"the largest lower column", TWO_LIMITS, 1000, 5, UINT32_MAX, 0, "0 0 0", 5, -5, 1, 4},
    {"both columns", TWO_LIMITS, 1000, 26, 26, 0, "0 0 0", 5, -5, 1, 4},
    {"a lower column, where the upper has no entry", TWO_LIMITS, 1000, 7, 26, 0, "0 0 0", 5, -5, 1, 4},
    {"an upper column, where the lower has no entry", TWO_LIMITS, 1000, 26, 7, 0, "0 0 0", 5, -5, 1, 4},
    {"a lower column, with bad readings", TWO_LIMITS, 1000, 5, 26, 0, "2000 0", 5, 5, 0, 4},

    {"stopped", ALL, 1000, 5, 12, STOPPED, "0 0 0", 5, -5, 1, 5},
    {"stopped, where the column has no entry", ALL, 1000, 7, 12, STOPPED, "0 0 0", 5, -5, 1, 5},
    {"stopped, where the lower has no entry", TWO_LIMITS, 1000, 5, 7, STOPPED, "0 0 0", 5, -5, 1, 5},
    {"stopped, where n differs", TWO_LIMITS, 1000, 5, 9, STOPPED, "0 0 0", 5, -5, 1, 5},
    {"stopped, with bad limits", ALL, 1000, 5, 12, STOPPED, "0 0", 1001, 1001, 0, 5},
    {"a column is before stopped", ALL, 1000, 26, 12, STOPPED, "0 0 0", 5, -5, 1, 4},
    {"a lower column is before stopped", TWO_LIMITS, 1000, 5, 26, STOPPED, "0 0 0", 5, -5, 1, 4},
    {"a severity over 3 is before a column", ALL, 1000, 26, 12, 4, "0 0 0", 5, -5, 1, 1},
    {"a severity over 3 is before a lower column", TWO_LIMITS, 1000, 5, 26, 4, "0 0 0", 5, -5, 1, 1},
    {"a size under 2 is before a lower column", TWO_LIMITS, 1, 5, 26, 0, "0 0 0", 5, -5, 1, 2},

    {"no entry", ALL, 1000, 7, 12, 0, "0 0 0", 5, -5, 1, 6},
    {"no lower entry", TWO_LIMITS, 1000, 5, 7, 0, "0 0 0", 5, -5, 1, 6},
    {"neither", TWO_LIMITS, 1000, 7, 8, 0, "0 0 0", 5, -5, 1, 6},
    {"one column that has none", TWO_LIMITS, 1000, 7, 7, 0, "0 0 0", 5, -5, 1, 6},
    {"a column over 15 has no entry", ALL, 1000, 16, 12, 0, "0 0 0", 5, -5, 1, 6},
    {"a lower column over 15 has none", TWO_LIMITS, 1000, 5, 25, 0, "0 0 0", 5, -5, 1, 6},
    {"no entry under tightened", ALL, 1000, 5, 12, TIGHTENED, "0 0 0", 5, -5, 1, 6},
    {"no entry under reduced", ALL, 1000, 5, 12, REDUCED, "0 0 0", 5, -5, 1, 6},
    {"n above the lot", ALL, 2, 5, 12, 0, "0 0 0", 5, -5, 1, 6},
    {"n is the lot", ALL, 3, 5, 12, 0, "0 0 0", 5, -5, 1, 0},
    {"n above a lot of 7", ALL, 7, 14, 14, 0, "0 0 0 0 0 0 0 0", 5, -5, 1, 6},
    {"n is a lot of 8", ALL, 8, 14, 14, 0, "0 0 0 0 0 0 0 0", 5, -5, 1, 0},
    {"the lower n alone above the lot", TWO_LIMITS, 2, 9, 5, 0, "0 0", 5, -5, 1, 6},
    {"the upper n alone above the lot", TWO_LIMITS, 2, 5, 9, 0, "0 0", 5, -5, 1, 6},
    {"n differs, with as many readings as the upper has", TWO_LIMITS, 1000, 5, 9, 0, "0 0 0", 5, -5, 1, 6},
    {"n differs, with as many readings as the lower has", TWO_LIMITS, 1000, 5, 9, 0, "0 0 0 0", 5, -5, 1, 6},
    {"n differs the other way", TWO_LIMITS, 1000, 9, 5, 0, "0 0 0", 5, -5, 1, 6},
    {"n differs the other way, by the other n", TWO_LIMITS, 1000, 9, 5, 0, "0 0 0 0", 5, -5, 1, 6},
    {"n differs by one less", TWO_LIMITS, 1000, 5, 14, 0, "0 0", 5, -5, 1, 6},
    {"n differs, with no readings", TWO_LIMITS, 1000, 5, 9, 0, "", 5, -5, 1, 6},
    {"n differs, with a bad reading and bad limits", TWO_LIMITS, 1000, 5, 9, 0, "2000 0 0", 5, 5, 0, 6},
    {"no entry, with a bad reading and bad limits", ALL, 1000, 7, 12, 0, "2000 0 0", 1001, 1001, 0, 6},

    {"a reading less", ALL, 1000, 5, 12, 0, "0 0", 5, -5, 1, 7},
    {"a reading more", ALL, 1000, 5, 12, 0, "0 0 0 0", 5, -5, 1, 7},
    {"no readings", ALL, 1000, 5, 12, 0, "", 5, -5, 1, 7},
    {"half a reading less", ALL, 1000, 5, 12, 0, "0 0 h", 5, -5, 1, 7},
    {"half a reading more", ALL, 1000, 5, 12, 0, "0 0 0 h", 5, -5, 1, 7},
    {"a reading less, and a bad one", ALL, 1000, 5, 12, 0, "1001 0", 5, -5, 1, 7},
    {"a reading less, and a bad limit", ALL, 1000, 5, 12, 0, "0 0", 1001, -5, 1, 7},
    {"a reading less, and a bad lower limit", TWO_LIMITS, 1000, 5, 12, 0, "0 0", 5, -1001, 1, 7},
    {"a reading less, and equal limits", TWO_LIMITS, 1000, 5, 12, 0, "0 0", 5, 5, 1, 7},
    {"a reading more, and no sigma", KNOWN, 1000, 5, 12, 0, "0 0 0 0", 5, -5, 0, 7},

    {"a reading of 1,001", ALL, 1000, 5, 12, 0, "0 1001 0", 5, -5, 1, 9},
    {"a reading of -1,001", ALL, 1000, 5, 12, 0, "0 0 -1001", 5, -5, 1, 9},
    {"a limit of 1,001", ALL, 1000, 5, 12, 0, "0 0 0", 1001, -5, 1, 9},
    {"a limit of -1,001", ALL, 1000, 5, 12, 0, "0 0 0", -1001, -1002, 1, 9},
    {"a limit that is 5 in 16 bits", ALL, 1000, 5, 12, 0, "0 0 0", 65536 + 5, -5, 1, 9},
    {"the largest limit", ALL, 1000, 5, 12, 0, "0 0 0", INT32_MAX, -5, 1, 9},
    {"the smallest limit", ALL, 1000, 5, 12, 0, "0 0 0", INT32_MIN, -5, 1, 9},
    {"a lower limit of -1,001", TWO_LIMITS, 1000, 5, 12, 0, "0 0 0", 5, -1001, 1, 9},
    {"a lower limit that is -5 in 16 bits", TWO_LIMITS, 1000, 5, 12, 0, "0 0 0", 5, -65536 - 5, 1, 9},
    {"the smallest lower limit", TWO_LIMITS, 1000, 5, 12, 0, "0 0 0", 5, INT32_MIN, 1, 9},
    {"equal limits", TWO_LIMITS, 1000, 5, 12, 0, "0 0 0", 0, 0, 1, 9},
    {"equal limits at the end", TWO_LIMITS, 1000, 5, 12, 0, "1000 1000 1000", 1000, 1000, 1, 9},
    {"equal limits on one column", TWO_LIMITS, 1000, 5, 5, 0, "0 0 0", -7, -7, 1, 9},
    {"crossed limits", TWO_LIMITS, 1000, 5, 12, 0, "0 0 0", -1, 0, 1, 9},
    {"limits far across", TWO_LIMITS, 1000, 5, 12, 0, "0 0 0", -1000, 1000, 1, 9},
    {"limits next to each other", TWO_LIMITS, 1000, 5, 12, 0, "0 0 0", 1, 0, 1, 0},
    {"limits next to each other at the top", TWO_LIMITS, 1000, 5, 12, 0, "0 0 0", 1000, 999, 1, 0},
    {"limits next to each other at the bottom", TWO_LIMITS, 1000, 5, 12, 0, "0 0 0", -999, -1000, 1, 0},
    {"no sigma", KNOWN, 1000, 5, 12, 0, "0 0 0", 5, -5, 0, 9},
    {"a sigma of 1,001", KNOWN, 1000, 5, 12, 0, "0 0 0", 5, -5, 1001, 9},
    {"a sigma that is 1 in a byte", KNOWN, 1000, 5, 12, 0, "0 0 0", 5, -5, 256 * 4 + 1, 9},
    {"a sigma that is 1 in 16 bits", KNOWN, 1000, 5, 12, 0, "0 0 0", 5, -5, 65537, 9},
    {"a sigma of -1", KNOWN, 1000, 5, 12, 0, "0 0 0", 5, -5, UINT32_MAX, 9},
    {"a sigma of 2^31 and 1", KNOWN, 1000, 5, 12, 0, "0 0 0", 5, -5, 0x80000001, 9},
};

static bool is_for(enum whom whom, enum function f) {
    return whom == ALL || (whom == TWO_LIMITS ? has_two_limits(f) : is_sigma(f));
}

static const enum function four[] = {BOTH, SIGMA_UPPER, SIGMA_LOWER, SIGMA_BOTH};

static void worked_refusals(void) {
    for (unsigned f = 0; f < 4; f++)
        for (unsigned i = 0; i < sizeof refusals / sizeof *refusals; i++) {
            const struct refusal_case *r = &refusals[i];
            if (!is_for(r->whom, four[f]))
                continue;
            put_lot(four[f], r->size, r->column, r->lower_column, r->severity);
            put_limits(r->limit, r->lower, r->sigma);
            put_their_book();
            set_readings(r->readings);
            expect(run_both(&call, &answer) == r->number, r->what);
        }
}

/* A single limit has no other side, and the s method no sigma: what is lent for those is not looked at. */
static void not_looked_at(void) {
    for (unsigned f = 0; f < 4; f++) {
        bool two = has_two_limits(four[f]);
        put_lot(four[f], LOT_OF_J, 5, two ? 12 : 26, NORMAL);
        put_limits(four[f] == SIGMA_LOWER ? -5 : 5, two ? -5 : 1001, is_sigma(four[f]) ? 1 : 0);
        put_their_book();
        set_readings("0 0 0");
        expect(run_both(&call, &answer) == 0 && answer.accepted == 1, "T-07: each method by what it takes");
    }
}

/* ---- with everything wrong at once, put right one by one in the order in which they are given */

enum { STEPS = 15 };

static void put_right(enum function function, unsigned steps) {
    put_lot(function, steps > 2 ? LOT_OF_J : 1,
            steps > 7   ? 5
            : steps > 4 ? 7
                        : 26,
            steps > 9   ? 12
            : steps > 8 ? 9
            : steps > 5 ? 8
                        : 27,
            steps > 6   ? NORMAL
            : steps > 1 ? STOPPED
                        : 4);
    call.level = steps > 3 ? LEVEL_II : 7;
    set_readings(steps > 11 ? "0 1 2" : steps > 10 ? "0 1001 2" : "0 1001");
    put_limits(steps <= 12 ? 1001 : function == SIGMA_LOWER ? -10 : 10, steps > 13 ? -10 : 1001, steps > 14 ? 1 : 0);
    put_their_book();
    call.book_len -= steps > 0 ? 0 : 1;
}

/* A single limit has no lower column to put right, nor an n that differs; the s method has no sigma. */
static unsigned number_at(enum function f, unsigned steps) {
    static const unsigned numbers[STEPS + 1] = {12, 1, 2, 3, 4, 4, 5, 6, 6, 6, 7, 9, 9, 9, 9, 0};
    if (!has_two_limits(f) && (steps == 5 || steps == 8 || steps == 9))
        return steps == 5 ? 5 : 7;
    return !is_sigma(f) && steps == 14 ? 0 : numbers[steps];
}

static void refusals_in_order(void) {
    for (unsigned f = 0; f < 4; f++)
        for (unsigned steps = 0; steps <= STEPS; steps++) {
            put_right(four[f], steps);
            uint64_t status = number_at(four[f], steps) | (steps == 0 ? (uint64_t)call.book_len << 8 : 0);
            expect(run_both(&call, &answer) == status, "T-07: 12, then 1 to 7, then 9");
            expect(status != 0 || answer.accepted == 1, "T-07: with nothing wrong the lot is accepted");
        }
}

/* ---- books of four sections, and of five */

/* One variables plan and one sigma plan under one key, with another n and K. */
static const struct plan by_s = {LETTER_J, 5, 3, 500}, by_sigma = {LETTER_J, 5, 2, 1000};

static void put_two_plans(bool fifth) {
    put_plans(VARIABLES_SECTION, &by_s, 1);
    if (fifth)
        put_list(&by_sigma, 1);
}

static void judge_one_key(enum function function, const char *readings, uint64_t status, const char *what) {
    put_lot(function, LOT_OF_J, 5, 5, NORMAL);
    put_limits(function == LOWER || function == SIGMA_LOWER ? 11 : 13, 11, 1000);
    set_readings(readings);
    for (unsigned fifth = 0; fifth < 2; fifth++) {
        put_two_plans(fifth);
        uint64_t expected = is_sigma(function) && !fifth ? 6 : status;
        expect(run_both(&call, &answer) == expected, what);
        expect(expected != 0 || (answer.accepted == 1 && 2u * answer.used == call.sample_len), what);
    }
}

/* A book from before there were sigma plans is read as it was, and has none. */
static void old_books(void) {
    static const enum function by_three[] = {UPPER, LOWER, BOTH};
    for (unsigned i = 0; i < 3; i++) {
        judge_one_key(by_three[i], "10 12 14", 0, "T-07: the variables plan, with sigma plans and without");
        judge_one_key(by_three[i], "12 12", 7, "T-07: the variables plan and not the sigma plan");
    }
    for (unsigned i = 1; i < 4; i++) {
        judge_one_key(four[i], "12 12", 0, "T-07: the sigma plan, where there is one");
        judge_one_key(four[i], "10 12 14", 7, "T-07: the sigma plan and not the variables plan");
    }
}

/* A sigma plan is no variables plan. */
static void sigma_plans_alone(void) {
    static const enum function functions[] = {VARIABLES_PLAN, UPPER, LOWER, BOTH};
    for (unsigned i = 0; i < 4; i++) {
        put_lot(functions[i], LOT_OF_J, 5, 5, NORMAL);
        put_limits(13, 11, 1000);
        put_plans(SIGMA_SECTION, &by_s, 1);
        set_readings("10 12 14");
        expect(run_both(&call, &answer) == 6, "T-07: a sigma plan is no variables plan");
    }
}

/* A plan of reduced and of tightened inspection, under their severity alone. */
static void every_severity(void) {
    for (unsigned f = 0; f < 4; f++)
        for (unsigned of = NORMAL; of <= REDUCED; of++)
            for (unsigned severity = NORMAL; severity <= STOPPED; severity++) {
                const unsigned entry[] = {of, LETTER_J, 5, 3, 1000};
                put_lot(four[f], LOT_OF_J, 5, 5, severity);
                put_limits(four[f] == SIGMA_LOWER ? -5 : 5, -5, 1);
                set_entry(&call, section_of(four[f]), entry, 5);
                set_readings("0 0 0");
                expect(run_both(&call, &answer) == (severity == STOPPED ? 5
                                                    : severity == of    ? 0
                                                                        : 6),
                       "T-07: a plan is looked up by the severity");
            }
}

void limit_cases(void) {
    draw_fixed();
    memset(&call, 0, sizeof call);
    worked_verdicts();
    worked_refusals();
    not_looked_at();
    refusals_in_order();
    old_books();
    sigma_plans_alone();
    every_severity();
}
