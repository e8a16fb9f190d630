/* Readings beside their limits. See sides.h. */
#include "sides.h"

#include "../../include/hipomoake.h"
#include "reference.h"

#include <stdio.h>

enum { MOST_COLUMN = 25, MOST_READING = 1000, MOST_SIGMA = 1000, MILLION = 1000000, ENTRY_BYTES = 10 };

bool is_sigma(enum function f) {
    return f == SIGMA_UPPER || f == SIGMA_LOWER || f == SIGMA_BOTH;
}

bool has_two_limits(enum function f) {
    return f == BOTH || f == SIGMA_BOTH;
}

bool is_of_t07(enum function f) {
    return f == BOTH || is_sigma(f);
}

bool judges_readings(enum function f) {
    return f == UPPER || f == LOWER || is_of_t07(f);
}

unsigned section_of(enum function f) {
    return is_sigma(f) ? SIGMA_SECTION : VARIABLES_SECTION;
}

/* ---- the plans, by a walk over a sound book: n is 0 where there is none */

struct plan {
    int64_t n, k;
};

/* Past the end there are none, should a broken book have been let pass. */
static unsigned number_in(const struct call *c, size_t at) {
    return at + 2 <= c->book_len ? c->book[at] | (unsigned)c->book[at + 1] << 8 : 0;
}

/* An entry has 8, 16 or 10 bytes; a staged one 8, and 6 for each stage. */
static size_t count_at(const struct call *c, unsigned section) {
    static const unsigned bytes[COUNTED_SECTIONS] = {8, 0, 16, 10};
    size_t at = 0;
    for (unsigned i = 0; i < section; i++) {
        unsigned entries = number_in(c, at);
        for (at += 2; entries > 0; entries--)
            at += i == HM_STAGED_SECTION ? 8 + 6 * number_in(c, at + 6) : bytes[i];
    }
    return at;
}

static bool has_section(const struct call *c) {
    return count_at(c, section_of(c->function)) < c->book_len;
}

static struct plan plan_under(const struct call *c, uint32_t column) {
    size_t at = count_at(c, section_of(c->function));
    unsigned entries = number_in(c, at);
    uint8_t letter = 0;
    ref_letter(c->size, c->level, &letter);
    for (at += 2; entries > 0; entries--, at += ENTRY_BYTES)
        if (number_in(c, at) == c->severity && number_in(c, at + 2) == letter && number_in(c, at + 4) == column)
            return (struct plan){number_in(c, at + 6), number_in(c, at + 8)};
    return (struct plan){0, 0};
}

/* ---- why a call is refused, once its lot is one to inspect; a single limit counts as an upper one */

enum reason {
    ANSWERED,
    UPPER_COLUMN,
    LOWER_COLUMN,
    BOTH_COLUMNS,
    NO_SECTION,
    NO_UPPER,
    NO_LOWER,
    NEITHER,
    ABOVE_LOT,
    N_DIFFERS,
    LENGTH,
    READING,
    UPPER_LIMIT,
    LOWER_LIMIT,
    EQUAL_LIMITS,
    CROSSED_LIMITS,
    SIGMA_0,
    SIGMA_OVER,
    SEVERAL,
    REASONS
};

static const char *const reasons[REASONS] = {
    "answered",     "4: upper column", "lower",     "both",       "6: no section", "no upper entry", "no lower",
    "neither",      "n above the lot", "n differs", "7",          "9: a reading",  "upper limit",    "lower",
    "equal limits", "crossed",         "sigma 0",   "sigma over", "several"};

static unsigned number_of(enum reason reason) {
    return reason == ANSWERED ? 0 : reason < NO_SECTION ? 4 : reason < LENGTH ? 6 : reason == LENGTH ? 7 : 9;
}

static enum reason column_reason(const struct call *c) {
    bool upper = c->column > MOST_COLUMN, lower = has_two_limits(c->function) && c->lower_column > MOST_COLUMN;
    return upper && lower ? BOTH_COLUMNS : upper ? UPPER_COLUMN : lower ? LOWER_COLUMN : ANSWERED;
}

static int reading_at(const struct call *c, size_t i) {
    return (int16_t)(c->sample[2 * i] | (unsigned)c->sample[2 * i + 1] << 8);
}

static bool out_of_gauge(int64_t number) {
    return number > MOST_READING || number < -MOST_READING;
}

/* The range that is broken; or that there are several. Limits that are out of range may be crossed as well. */
static enum reason range_reason(const struct call *c) {
    bool two = has_two_limits(c->function), sigma = is_sigma(c->function), reading = false;
    for (size_t i = 0; i < c->sample_len / 2; i++)
        reading = reading || out_of_gauge(reading_at(c, i));
    const struct {
        bool broken;
        enum reason reason;
    } ranges[] = {{reading, READING},
                  {out_of_gauge(c->limit), UPPER_LIMIT},
                  {two && out_of_gauge(c->lower_limit), LOWER_LIMIT},
                  {two && c->lower_limit == c->limit, EQUAL_LIMITS},
                  {two && c->lower_limit > c->limit, CROSSED_LIMITS},
                  {sigma && c->sigma == 0, SIGMA_0},
                  {sigma && c->sigma > MOST_SIGMA, SIGMA_OVER}};
    enum reason found = ANSWERED;
    for (unsigned i = 0; i < sizeof ranges / sizeof *ranges; i++)
        if (ranges[i].broken)
            found = found == ANSWERED ? ranges[i].reason : SEVERAL;
    return found;
}

static enum reason reason_of(const struct call *c, struct plan upper, struct plan lower) {
    bool two = has_two_limits(c->function);
    if (!has_section(c))
        return NO_SECTION;
    if (upper.n == 0)
        return two && lower.n == 0 ? NEITHER : NO_UPPER;
    if (lower.n == 0)
        return NO_LOWER;
    if (upper.n > c->size || lower.n > c->size)
        return ABOVE_LOT;
    if (upper.n != lower.n)
        return N_DIFFERS;
    return c->sample_len != 2 * (size_t)upper.n ? LENGTH : range_reason(c);
}

/* ---- how near a side is to its limit */

enum ending { BELOW_0, SHORT, ONE_SHORT, EQUAL, ENOUGH, MORE, ENDINGS };

static const char *const endings[ENDINGS] = {"below 0", "short", "one short", "equal", "enough by less than one",
                                             "more"};

struct sums {
    int64_t n, sum, squares;
};

static struct sums sums_of(const struct call *c) {
    struct sums sums = {(int64_t)c->sample_len / 2, 0, 0};
    for (int64_t i = 0; i < sums.n; i++) {
        int64_t reading = reading_at(c, (size_t)i);
        sums.sum += reading;
        sums.squares += reading * reading;
    }
    return sums;
}

/* What is left over of a margin, in any unit; below 0 where it is not enough. */
static int64_t left_of(const struct call *c, struct sums sums, struct plan plan, int64_t margin) {
    if (is_sigma(c->function))
        return MILLION * margin - plan.k * c->sigma * plan.n;
    if (margin < 0)
        return -1;
    return MILLION * margin * margin * (sums.n - 1) -
           plan.k * plan.k * sums.n * (sums.n * sums.squares - sums.sum * sums.sum);
}

/* A step is one unit of one reading where the spread is known; else of the limit, since a reading moves the spread. */
static enum ending ending_of(const struct call *c, struct sums sums, struct plan plan, int64_t margin) {
    int64_t left = left_of(c, sums, plan, margin), step = is_sigma(c->function) ? 1 : sums.n;
    if (margin < 0)
        return BELOW_0;
    if (left < 0)
        return left_of(c, sums, plan, margin + step) >= 0 ? ONE_SHORT : SHORT;
    return left == 0 ? EQUAL : left_of(c, sums, plan, margin - step) < 0 ? ENOUGH : MORE;
}

/* ---- the verdict */

/* The mean is within k sigma of the limit where the sum is within so many whole units of n times the limit. */
static bool known_accepts(const struct call *c, struct sums sums) {
    struct plan plan = plan_under(c, c->column);
    int64_t units = (plan.k * c->sigma * plan.n + MILLION - 1) / MILLION;
    if (c->function == SIGMA_UPPER)
        return sums.sum <= sums.n * c->limit - units;
    return sums.sum >= sums.n * c->limit + units;
}

/* What the archive says of readings beside one limit; 2 where it refuses. */
static unsigned one_side(const struct call *c, const uint8_t *readings, bool upper, uint32_t column, int32_t limit) {
    uint8_t accepted = 2;
    uint16_t used = 0;
    uint32_t status;
    if (is_sigma(c->function))
        status = (upper ? hm_sigma_upper : hm_sigma_lower)(c->size, c->level, column, c->severity, c->book, c->book_len,
                                                           readings, c->sample_len, limit, c->sigma, &accepted, &used);
    else
        status = (upper ? hm_variables_upper : hm_variables_lower)(c->size, c->level, column, c->severity, c->book,
                                                                   c->book_len, readings, c->sample_len, limit,
                                                                   &accepted, &used);
    return status == 0 && 2 * (size_t)used == c->sample_len ? accepted : 2;
}

/* The same of two limits. */
static unsigned two_sides(const struct call *c, const uint8_t *readings, uint32_t upper_column, uint32_t lower_column,
                          int32_t upper, int32_t lower) {
    uint8_t accepted = 2;
    uint16_t used = 0;
    uint32_t status;
    if (is_sigma(c->function))
        status = hm_sigma_both(c->size, c->level, upper_column, lower_column, c->severity, c->book, c->book_len,
                               readings, c->sample_len, upper, lower, c->sigma, &accepted, &used);
    else
        status = hm_variables_both(c->size, c->level, upper_column, lower_column, c->severity, c->book, c->book_len,
                                   readings, c->sample_len, upper, lower, &accepted, &used);
    return status == 0 && 2 * (size_t)used == c->sample_len ? accepted : 2;
}

/* With all signs turned the upper side is the lower one. */
static unsigned mirrored(const struct call *c) {
    static uint8_t readings[SAMPLE_ROOM];
    for (size_t i = 0; i < c->sample_len / 2; i++) {
        unsigned turned = (unsigned)-reading_at(c, i);
        readings[2 * i] = (uint8_t)turned;
        readings[2 * i + 1] = (uint8_t)(turned >> 8);
    }
    if (has_two_limits(c->function))
        return two_sides(c, readings, c->lower_column, c->column, -c->lower_limit, -c->limit);
    return one_side(c, readings, c->function == SIGMA_LOWER, c->column, -c->limit);
}

static void hold_verdict(const struct call *c, const struct answer *a) {
    if (mirrored(c) != a->accepted)
        report("T-07: with all signs turned and the sides exchanged the verdict is another", c);
    if (!has_two_limits(c->function)) {
        if (known_accepts(c, sums_of(c)) != a->accepted)
            report("T-07: the sum of the readings is not within its limit where the lot is accepted", c);
        return;
    }
    unsigned upper = one_side(c, c->sample, true, c->column, c->limit);
    unsigned lower = one_side(c, c->sample, false, c->lower_column, c->lower_limit);
    if (upper > 1 || lower > 1 || (upper && lower) != a->accepted)
        report("T-07: two limits do not accept exactly where each of them alone does", c);
}

/* ---- what was counted, by function: reasons, how near each side was, and which sides accepted */

enum { FOUR = 4 };

static unsigned long by_reason[FOUR][REASONS], by_ending[FOUR][2][ENDINGS], by_sides[FOUR][2][2][2];

static unsigned place_of(enum function f) {
    return f == BOTH ? 0 : f == SIGMA_UPPER ? 1 : f == SIGMA_LOWER ? 2 : 3;
}

static void count_sides(const struct call *c, struct plan upper, struct plan lower) {
    struct sums sums = sums_of(c);
    unsigned place = place_of(c->function);
    int64_t margin = sums.n * c->limit - sums.sum;
    enum ending first = ending_of(c, sums, upper, c->function == SIGMA_LOWER ? -margin : margin);
    by_ending[place][c->function == SIGMA_LOWER][first]++;
    if (!has_two_limits(c->function))
        return;
    enum ending second = ending_of(c, sums, lower, sums.sum - sums.n * c->lower_limit);
    by_ending[place][1][second]++;
    by_sides[place][c->column == c->lower_column][first >= EQUAL][second >= EQUAL]++;
}

void hold_to_sides(const struct call *c, uint64_t status, const struct answer *a) {
    unsigned number = HM_NUMBER(status);
    if (number == 12 || (number != 0 && number < 4) || number == 5)
        return;
    struct plan upper = {0, 0}, lower = {0, 0};
    if (number != 4) {
        upper = plan_under(c, c->column);
        lower = has_two_limits(c->function) ? plan_under(c, c->lower_column) : upper;
    }
    enum reason reason = number == 4 ? column_reason(c) : reason_of(c, upper, lower);
    by_reason[place_of(c->function)][reason]++;
    if (number != number_of(reason))
        report("T-07: 4 for either column, 6 for an entry of either side, 7, then 9 for what is out of range", c);
    if (status != 0 || reason != ANSWERED)
        return;
    hold_verdict(c, a);
    count_sides(c, upper, lower);
}

/* What a function cannot be refused for: a single limit has no lower one, and the s method no sigma. */
static bool can_occur(enum function f, enum reason reason) {
    bool of_lower = reason == LOWER_COLUMN || reason == BOTH_COLUMNS || reason == NO_LOWER || reason == NEITHER ||
                    reason == N_DIFFERS || reason == LOWER_LIMIT || reason == EQUAL_LIMITS || reason == CROSSED_LIMITS;
    bool of_sigma = reason == NO_SECTION || reason == SIGMA_0 || reason == SIGMA_OVER;
    return (has_two_limits(f) || !of_lower) && (is_sigma(f) || !of_sigma);
}

static bool summary_of_reasons(enum function f) {
    bool ok = true;
    for (unsigned i = 0; i < REASONS; i++)
        if (can_occur(f, (enum reason)i)) {
            printf("%s %s %lu", i > 0 ? "," : "", reasons[i], by_reason[place_of(f)][i]);
            ok = ok && by_reason[place_of(f)][i] != 0;
        }
    return ok;
}

static bool summary_of_endings(enum function f) {
    bool ok = true;
    for (unsigned side = 0; side < 2; side++) {
        if (f == (side == 0 ? SIGMA_LOWER : SIGMA_UPPER))
            continue;
        printf("; %s margin", side == 0 ? "upper" : "lower");
        for (unsigned i = 0; i < ENDINGS; i++) {
            printf("%s %s %lu", i > 0 ? "," : "", endings[i], by_ending[place_of(f)][side][i]);
            ok = ok && by_ending[place_of(f)][side][i] != 0;
        }
    }
    return ok;
}

/* In each pair of counts the columns differ, and are equal. */
static bool summary_of_pairs(enum function f) {
    static const char *const names[2][2] = {{"neither side accepts", "the lower alone"}, {"the upper alone", "both"}};
    bool ok = true;
    for (unsigned i = 0; has_two_limits(f) && i < 4; i++) {
        const unsigned long differ = by_sides[place_of(f)][0][i / 2][i % 2],
                            equal = by_sides[place_of(f)][1][i / 2][i % 2];
        printf("%s %s %lu %lu", i > 0 ? "," : ";", names[i / 2][i % 2], differ, equal);
        ok = ok && differ != 0 && equal != 0;
    }
    return ok;
}

bool summary_of_sides(void) {
    static const enum function four[FOUR] = {BOTH, SIGMA_UPPER, SIGMA_LOWER, SIGMA_BOTH};
    static const char *const names[FOUR] = {"two limits", "sigma, upper", "sigma, lower", "sigma, two limits"};
    bool all = true;
    for (unsigned i = 0; i < FOUR; i++) {
        printf("%s:", names[i]);
        bool ok = summary_of_reasons(four[i]);
        ok = summary_of_endings(four[i]) && ok;
        ok = summary_of_pairs(four[i]) && ok;
        printf("%s\n", ok ? "" : "  SOMETHING NEVER OCCURRED");
        all = all && ok;
    }
    return all;
}
