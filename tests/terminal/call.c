/* Both libraries on one call. See call.h. */
#include "call.h"

#include "../../include/hipomoake.h"
#include "curtail.h"
#include "draw.h"
#include "packed.h"
#include "reference.h"
#include "sides.h"
#include "sizes.h"

#include <stdio.h>
#include <string.h>

enum { NUMBERS = 13, BYTES = 5, GUARD = 16, MOST_REPORTS = 5 };

typedef uint32_t fractional_function(const uint8_t *, size_t, uint32_t, uint32_t, uint32_t, const uint8_t *, size_t,
                                     const uint8_t *, size_t, uint8_t *, uint16_t *);
typedef uint32_t judge_function(uint32_t, uint32_t, uint32_t, uint32_t, const uint8_t *, size_t, const uint8_t *,
                                size_t, uint8_t *, uint16_t *);
typedef uint32_t variables_function(uint32_t, uint32_t, uint32_t, uint32_t, const uint8_t *, size_t, const uint8_t *,
                                    size_t, int32_t, uint8_t *, uint16_t *);
typedef uint32_t sigma_function(uint32_t, uint32_t, uint32_t, uint32_t, const uint8_t *, size_t, const uint8_t *,
                                size_t, int32_t, uint32_t, uint8_t *, uint16_t *);
typedef uint32_t close_function(uint8_t *, size_t, uint32_t, uint32_t, uint32_t, uint32_t, const uint8_t *, size_t,
                                const uint8_t *, size_t, uint8_t *, uint16_t *, uint8_t *);

void set_lot(struct call *call, enum function function, uint32_t size, uint32_t level, uint32_t column,
             uint32_t severity) {
    memset(call, 0, sizeof *call);
    call->function = function;
    call->size = size;
    call->level = level;
    call->column = column;
    call->severity = severity;
    call->book_len = 8;
}

struct library {
    uint32_t (*letter)(uint32_t, uint32_t, uint8_t *);
    uint32_t (*plan)(uint32_t, uint32_t, uint32_t, uint32_t, const uint8_t *, size_t, uint8_t *, uint16_t *, uint16_t *,
                     uint16_t *, uint8_t *);
    uint32_t (*fractional_plan)(uint32_t, uint32_t, uint32_t, uint32_t, const uint8_t *, size_t, uint8_t *, uint16_t *,
                                uint16_t *, uint8_t *, uint16_t *, uint8_t *);
    uint32_t (*staged_plan)(uint32_t, uint32_t, uint32_t, uint32_t, const uint8_t *, size_t, uint8_t *, uint8_t *,
                            uint8_t *, size_t);
    uint32_t (*sequential_plan)(uint32_t, uint32_t, uint32_t, uint32_t, const uint8_t *, size_t, uint8_t *, uint16_t *,
                                uint16_t *, uint16_t *, uint16_t *, uint16_t *);
    uint32_t (*variables_plan)(uint32_t, uint32_t, uint32_t, uint32_t, const uint8_t *, size_t, uint8_t *, uint16_t *,
                               uint16_t *);
    judge_function *single, *staged, *sequential, *curtailed;
    variables_function *upper, *lower;
    uint32_t (*both)(uint32_t, uint32_t, uint32_t, uint32_t, uint32_t, const uint8_t *, size_t, const uint8_t *, size_t,
                     int32_t, int32_t, uint8_t *, uint16_t *);
    sigma_function *sigma_upper, *sigma_lower;
    uint32_t (*sigma_both)(uint32_t, uint32_t, uint32_t, uint32_t, uint32_t, const uint8_t *, size_t, const uint8_t *,
                           size_t, int32_t, int32_t, uint32_t, uint8_t *, uint16_t *);
    fractional_function *fractional;
    close_function *close_single, *close_staged, *close_fractional, *close_curtailed;
    uint32_t (*next)(uint8_t *, size_t, uint32_t);
    uint64_t (*list)(const uint8_t *, size_t, uint8_t *, size_t);
    uint32_t (*check_book)(const uint8_t *, size_t);
    uint32_t (*write_book)(const uint8_t *, size_t, const uint8_t *, size_t, const uint8_t *, size_t, const uint8_t *,
                           size_t, const uint8_t *, size_t, uint8_t *, size_t, uint32_t *);
    uint32_t (*count_entries)(const uint8_t *, size_t, uint32_t, uint32_t *);
    uint32_t (*read_entry)(const uint8_t *, size_t, uint32_t, uint32_t, uint8_t *, size_t, uint32_t *);
    uint32_t (*screen)(const uint8_t *, size_t, double *, double *, uint8_t *);
};

/* The functions of a library by what their names begin with, in the order of the struct. */
#define LIBRARY(of)                                                                                                    \
    {                                                                                                                  \
        of##_letter, of##_plan, of##_fractional_plan, of##_staged_plan, of##_sequential_plan, of##_variables_plan,     \
            of##_single, of##_staged, of##_sequential, of##_curtailed, of##_variables_upper, of##_variables_lower,     \
            of##_variables_both, of##_sigma_upper, of##_sigma_lower, of##_sigma_both, of##_fractional,                 \
            of##_close_single, of##_close_staged, of##_close_fractional, of##_close_curtailed, of##_next, of##_list,   \
            of##_check_book, of##_write_book, of##_count_entries, of##_read_entry, of##_screen                         \
    }

static const struct library proved = LIBRARY(hm), reference = LIBRARY(ref);

#define BIT(number) (1u << (number))
#define LOT_NUMBERS (BIT(1) | BIT(2) | BIT(3) | BIT(4) | BIT(5) | BIT(6) | BIT(12))
#define ITEM_NUMBERS (LOT_NUMBERS | BIT(7) | BIT(8))
#define READING_NUMBERS (LOT_NUMBERS | BIT(7) | BIT(9))
#define SINGLE_BYTES (BIT(0) | BIT(1) | BIT(2) | BIT(3) | BIT(4))

/* The numbers that each function can give beside 0, whether it gives verdicts, and the history bytes that it tells. */
static const struct {
    const char *name;
    unsigned numbers;
    bool judges;
    unsigned bytes;
} about[FUNCTIONS] = {
    [LETTER] = {"hm_letter", BIT(2) | BIT(3), false, 0},
    [PLAN] = {"hm_plan", LOT_NUMBERS, false, 0},
    [FRACTIONAL_PLAN] = {"hm_fractional_plan", LOT_NUMBERS, false, 0},
    [STAGED_PLAN] = {"hm_staged_plan", LOT_NUMBERS | BIT(11), false, 0},
    [SEQUENTIAL_PLAN] = {"hm_sequential_plan", LOT_NUMBERS, false, 0},
    [VARIABLES_PLAN] = {"hm_variables_plan", LOT_NUMBERS, false, 0},
    [SINGLE] = {"hm_single", ITEM_NUMBERS, true, 0},
    [STAGED] = {"hm_staged", ITEM_NUMBERS, true, 0},
    [SEQUENTIAL] = {"hm_sequential", ITEM_NUMBERS, true, 0},
    [CURTAILED] = {"hm_curtailed", ITEM_NUMBERS, true, 0},
    [UPPER] = {"hm_variables_upper", READING_NUMBERS, true, 0},
    [LOWER] = {"hm_variables_lower", READING_NUMBERS, true, 0},
    [BOTH] = {"hm_variables_both", READING_NUMBERS, true, 0},
    [SIGMA_UPPER] = {"hm_sigma_upper", READING_NUMBERS, true, 0},
    [SIGMA_LOWER] = {"hm_sigma_lower", READING_NUMBERS, true, 0},
    [SIGMA_BOTH] = {"hm_sigma_both", READING_NUMBERS, true, 0},
    [FRACTIONAL] = {"hm_fractional", ITEM_NUMBERS, true, 0},
    [CLOSE_SINGLE] = {"hm_close_single", ITEM_NUMBERS, true, SINGLE_BYTES},
    [CLOSE_STAGED] = {"hm_close_staged", ITEM_NUMBERS, true, BIT(0) | BIT(2) | BIT(3) | BIT(4)},
    [CLOSE_FRACTIONAL] = {"hm_close_fractional", ITEM_NUMBERS, true, SINGLE_BYTES},
    [CLOSE_CURTAILED] = {"hm_close_curtailed", ITEM_NUMBERS, true, SINGLE_BYTES},
    [NEXT] = {"hm_next", BIT(1) | BIT(5) | BIT(10), false, 0},
    [LIST] = {"hm_list", BIT(1) | BIT(5) | BIT(10) | BIT(11), false, 0},
    [CHECK_BOOK] = {"hm_check_book", BIT(12), false, 0},
    [WRITE_BOOK] = {"hm_write_book", BIT(11) | BIT(12), false, 0},
    [COUNT_ENTRIES] = {"hm_count_entries", BIT(12), false, 0},
    [READ_ENTRY] = {"hm_read_entry", BIT(6) | BIT(11) | BIT(12), false, 0},
    [SCREEN] = {"hm_screen", BIT(7) | BIT(9), false, 0},
};

static struct { unsigned long calls, numbers[NUMBERS], verdicts[2], bytes[BYTES]; } tally[FUNCTIONS];
static unsigned long differences;

/* Lots judged on a fraction, by its share, the clean lots before it and its total, held at 2. */
enum { SHARES = 4, RUNS = 3, TOTALS = 3 };
static unsigned long fractions[SHARES][RUNS][TOTALS];

/* ---- lent memory: between random guard bytes, at even and odd addresses, with a copy of what it held */

struct lent {
    uint8_t room[GUARD + 1 + LIST_ROOM + GUARD], copy[GUARD + 1 + LIST_ROOM + GUARD];
    size_t start, len;
};

static struct lent lent_book, lent_sample, lent_lists[SECTIONS], lent_out, expected_out;

static uint8_t *lend(struct lent *lent, const uint8_t *bytes, size_t len) {
    lent->start = GUARD + below(2);
    lent->len = len;
    draw_bytes(lent->room, lent->start);
    memcpy(lent->room + lent->start, bytes, len);
    draw_bytes(lent->room + lent->start + len, GUARD);
    memcpy(lent->copy, lent->room, lent->start + len + GUARD);
    return lent->room + lent->start;
}

static bool unchanged(const struct lent *lent) {
    return memcmp(lent->room, lent->copy, lent->start + lent->len + GUARD) == 0;
}

static bool is_expected(const struct lent *lent, const struct lent *expected) {
    return memcmp(lent->room, expected->room, lent->start + lent->len + GUARD) == 0;
}

/* The same random bytes for both sides to write to. */
static void lend_out(size_t len) {
    static uint8_t drawn[SAMPLE_ROOM];
    draw_bytes(drawn, len);
    lend(&lent_out, drawn, len);
    expected_out.start = lent_out.start;
    expected_out.len = len;
    memcpy(expected_out.room, lent_out.room, lent_out.start + len + GUARD);
    memcpy(expected_out.copy, lent_out.room, lent_out.start + len + GUARD);
}

/* Only a book to be written takes lists of rows. */
static void lend_lists(const struct call *c) {
    for (unsigned i = 0; c->function == WRITE_BOOK && i < SECTIONS; i++)
        lend(&lent_lists[i], c->lists[i].bytes, c->lists[i].len);
}

static bool lists_unchanged(const struct call *c) {
    bool same = true;
    for (unsigned i = 0; c->function == WRITE_BOOK && i < SECTIONS; i++)
        same = unchanged(&lent_lists[i]) && same;
    return same;
}

static bool takes_out(enum function f) {
    return f == STAGED_PLAN || f == LIST || f == WRITE_BOOK || f == READ_ENTRY;
}

const uint8_t *last_out(void) {
    return lent_out.room + lent_out.start;
}

/* ---- a call */

static uint32_t run_judge(judge_function *judge, const struct call *c, const uint8_t *book, const uint8_t *sample,
                          struct answer *a) {
    return judge(c->size, c->level, c->column, c->severity, book, c->book_len, sample, c->sample_len, &a->accepted,
                 &a->used);
}

static uint32_t run_variables(variables_function *judge, const struct call *c, const uint8_t *book,
                              const uint8_t *readings, struct answer *a) {
    return judge(c->size, c->level, c->column, c->severity, book, c->book_len, readings, c->sample_len, c->limit,
                 &a->accepted, &a->used);
}

static uint32_t run_sigma(sigma_function *judge, const struct call *c, const uint8_t *book, const uint8_t *readings,
                          struct answer *a) {
    return judge(c->size, c->level, c->column, c->severity, book, c->book_len, readings, c->sample_len, c->limit,
                 c->sigma, &a->accepted, &a->used);
}

static uint32_t run_readings(const struct library *of, const struct call *c, const uint8_t *book,
                             const uint8_t *readings, struct answer *a) {
    switch (c->function) {
    case UPPER:
        return run_variables(of->upper, c, book, readings, a);
    case LOWER:
        return run_variables(of->lower, c, book, readings, a);
    case SIGMA_UPPER:
        return run_sigma(of->sigma_upper, c, book, readings, a);
    case SIGMA_LOWER:
        return run_sigma(of->sigma_lower, c, book, readings, a);
    case BOTH:
        return of->both(c->size, c->level, c->column, c->lower_column, c->severity, book, c->book_len, readings,
                        c->sample_len, c->limit, c->lower_limit, &a->accepted, &a->used);
    default:
        return of->sigma_both(c->size, c->level, c->column, c->lower_column, c->severity, book, c->book_len, readings,
                              c->sample_len, c->limit, c->lower_limit, c->sigma, &a->accepted, &a->used);
    }
}

static uint32_t run_fractional(fractional_function *judge, const struct call *c, const uint8_t *book,
                               const uint8_t *sample, struct answer *a) {
    return judge(a->record, c->record_len, c->size, c->level, c->column, book, c->book_len, sample, c->sample_len,
                 &a->accepted, &a->used);
}

static uint32_t run_close(close_function *close, const struct call *c, const uint8_t *book, const uint8_t *sample,
                          struct answer *a) {
    return close(a->record, c->record_len, c->resubmitted, c->size, c->level, c->column, book, c->book_len, sample,
                 c->sample_len, &a->accepted, &a->used, &a->byte);
}

static uint32_t run_closing(const struct library *of, const struct call *c, const uint8_t *book, const uint8_t *sample,
                            struct answer *a) {
    switch (c->function) {
    case CLOSE_SINGLE:
        return run_close(of->close_single, c, book, sample, a);
    case CLOSE_STAGED:
        return run_close(of->close_staged, c, book, sample, a);
    case CLOSE_FRACTIONAL:
        return run_close(of->close_fractional, c, book, sample, a);
    default:
        return run_close(of->close_curtailed, c, book, sample, a);
    }
}

static uint32_t run_plan(const struct library *of, const struct call *c, const uint8_t *book, uint8_t *out,
                         struct answer *a) {
    switch (c->function) {
    case LETTER:
        return of->letter(c->size, c->level, &a->letter);
    case PLAN:
        return of->plan(c->size, c->level, c->column, c->severity, book, c->book_len, &a->letter, &a->n, &a->ac,
                        &a->table_n, &a->cut);
    case FRACTIONAL_PLAN:
        return of->fractional_plan(c->size, c->level, c->column, c->severity, book, c->book_len, &a->letter, &a->n,
                                   &a->ac, &a->share, &a->table_n, &a->cut);
    case STAGED_PLAN:
        return of->staged_plan(c->size, c->level, c->column, c->severity, book, c->book_len, &a->letter, &a->stages,
                               out, c->out_len);
    case SEQUENTIAL_PLAN:
        return of->sequential_plan(c->size, c->level, c->column, c->severity, book, c->book_len, &a->letter, &a->ha,
                                   &a->hr, &a->g, &a->nt, &a->at);
    default:
        return of->variables_plan(c->size, c->level, c->column, c->severity, book, c->book_len, &a->letter, &a->n,
                                  &a->k);
    }
}

static const uint8_t *list_lent(unsigned section) {
    return lent_lists[section].room + lent_lists[section].start;
}

static uint32_t run_book(const struct library *of, const struct call *c, const uint8_t *book, uint8_t *out,
                         struct answer *a) {
    switch (c->function) {
    case WRITE_BOOK:
        return of->write_book(list_lent(0), c->lists[0].len, list_lent(1), c->lists[1].len, list_lent(2),
                              c->lists[2].len, list_lent(3), c->lists[3].len, list_lent(4), c->lists[4].len, out,
                              c->out_len, &a->written);
    case COUNT_ENTRIES:
        return of->count_entries(book, c->book_len, c->section, &a->count);
    case READ_ENTRY:
        return of->read_entry(book, c->book_len, c->section, c->nth, out, c->out_len, &a->numbers);
    default:
        return of->check_book(book, c->book_len);
    }
}

static uint64_t run(const struct library *of, const struct call *c, const uint8_t *book, const uint8_t *sample,
                    uint8_t *out, struct answer *a) {
    if (judges_readings(c->function))
        return run_readings(of, c, book, sample, a);
    switch (c->function) {
    case SINGLE:
        return run_judge(of->single, c, book, sample, a);
    case STAGED:
        return run_judge(of->staged, c, book, sample, a);
    case SEQUENTIAL:
        return run_judge(of->sequential, c, book, sample, a);
    case CURTAILED:
        return run_judge(of->curtailed, c, book, sample, a);
    case FRACTIONAL:
        return run_fractional(of->fractional, c, book, sample, a);
    case CLOSE_SINGLE:
    case CLOSE_STAGED:
    case CLOSE_FRACTIONAL:
    case CLOSE_CURTAILED:
        return run_closing(of, c, book, sample, a);
    case NEXT:
        return of->next(a->record, c->record_len, c->event);
    case LIST:
        return of->list(sample, c->sample_len, out, c->out_len);
    case CHECK_BOOK:
    case WRITE_BOOK:
    case COUNT_ENTRIES:
    case READ_ENTRY:
        return run_book(of, c, book, out, a);
    case SCREEN:
        return of->screen(sample, c->sample_len, &a->mean, &a->variance, &a->both);
    default:
        return run_plan(of, c, book, out, a);
    }
}

/* ---- what was counted */

bool takes_record(enum function f) {
    return f == FRACTIONAL || f == CLOSE_SINGLE || f == CLOSE_STAGED || f == CLOSE_FRACTIONAL || f == CLOSE_CURTAILED;
}

unsigned sample_total(const struct call *c) {
    unsigned total = 0;
    for (size_t i = 0; i + 1 < c->sample_len; i += 2)
        total += c->sample[i] | (unsigned)c->sample[i + 1] << 8;
    return total;
}

/* The verdict on a fraction is held to T-01's own sentence as well. */
static void count_fraction(const struct call *c, const struct answer *a) {
    uint8_t letter, share, cut;
    uint16_t n, ac, table_n;
    unsigned total = sample_total(c), clean = 0;
    uint32_t status = ref_fractional_plan(c->size, c->level, c->column, c->record[0], c->book, c->book_len, &letter, &n,
                                          &ac, &share, &table_n, &cut);
    if (status != 0 || share == 0)
        return;
    if (c->record[CLEAN_LETTER] == letter && c->record[CLEAN_COLUMN] == c->column)
        clean = c->record[CLEAN] % RUNS;
    fractions[share][clean][total < TOTALS ? total : TOTALS - 1]++;
    if (a->accepted != (total == 0 || (total == 1 && (share == 2 ? clean >= 1 : clean == 2))))
        report("one nonconforming item needs one clean lot under 1/2, two under 1/3", c);
}

static void count(const struct call *c, uint64_t status, const struct answer *a) {
    unsigned number = HM_LIST_NUMBER(status), verdict = a->accepted & 1, byte = a->byte;
    tally[c->function].calls++;
    if (number >= NUMBERS || (number != 0 && (about[c->function].numbers & BIT(number)) == 0))
        report("a number that this function cannot give", c);
    else
        tally[c->function].numbers[number]++;
    if (status != 0)
        return;
    if (about[c->function].judges)
        tally[c->function].verdicts[verdict]++;
    if (c->function == FRACTIONAL || c->function == CLOSE_FRACTIONAL)
        count_fraction(c, a);
    if (about[c->function].bytes != 0 && (byte >= BYTES || (about[c->function].bytes & BIT(byte)) == 0))
        report("a history byte that this function cannot tell", c);
    else if (about[c->function].bytes != 0)
        tally[c->function].bytes[byte]++;
}

/* ---- what differs. What a side did not write is the same random bytes on both. */

static void print_bytes(const char *name, const uint8_t *bytes, size_t len) {
    printf("  %s, %zu bytes:", name, len);
    for (size_t i = 0; i < len && i < 400; i++)
        printf(" %02x", bytes[i]);
    printf("%s\n", len > 400 ? " .." : "");
}

static void print_side(const char *side, uint64_t status, const struct answer *a, const struct lent *out) {
    printf("%s: status %u at %llu; letter %u n %u Ac %u share %u, the table's n %u cut %u; ", side,
           (unsigned)HM_LIST_NUMBER(status), (unsigned long long)HM_LIST_PLACE(status), a->letter, a->n, a->ac,
           a->share, a->table_n, a->cut);
    printf("accepted %u used %u byte %u; ", a->accepted, a->used, a->byte);
    printf("stages %u; hA %u hR %u g %u nt %u At %u; k %u; mean %g variance %g both %u; ", a->stages, a->ha, a->hr,
           a->g, a->nt, a->at, a->k, a->mean, a->variance, a->both);
    printf("written %u count %u numbers %u; record", (unsigned)a->written, (unsigned)a->count, (unsigned)a->numbers);
    for (unsigned i = 0; i < RECORD; i++)
        printf(" %u", a->record[i]);
    printf("\n");
    print_bytes("row, severities or book", out->room + out->start, out->len);
}

static void hold(const struct call *c, uint64_t status, const struct answer *a, uint64_t expected_status,
                 const struct answer *expected) {
    bool same_answer = memcmp(a, expected, sizeof *a) == 0 && is_expected(&lent_out, &expected_out);
    if (status == expected_status && same_answer)
        return;
    if (differences < MOST_REPORTS) {
        print_side("proved   ", status, a, &lent_out);
        print_side("reference", expected_status, expected, &expected_out);
    }
    if (status != expected_status)
        report("the status differs", c);
    else
        report(status == 0 ? "an answer, the record, lent bytes or a guard byte differs" : "a refusal wrote", c);
}

/* A list is held to the written reading as well, which keeps no record. */
static void hold_to_reading(const struct call *c, uint64_t status) {
    static uint8_t read[SAMPLE_ROOM];
    if (ref_read_list(c->sample, c->sample_len, read, c->out_len) != status)
        report("the written reading has another status", c);
    else if (status == 0 && memcmp(read, last_out(), c->sample_len) != 0)
        report("the written reading has other severities", c);
}

uint64_t run_both(const struct call *c, struct answer *a) {
    static struct answer before, expected;
    const uint8_t *book = lend(&lent_book, c->book, c->book_len);
    const uint8_t *sample = lend(&lent_sample, c->sample, c->sample_len);
    draw_bytes((uint8_t *)&before, sizeof before);
    memcpy(before.record, c->record, c->record_len);
    memcpy(a, &before, sizeof before);
    memcpy(&expected, &before, sizeof before);
    lend_lists(c);
    lend_out(takes_out(c->function) ? c->out_len : 0);
    uint64_t status = run(&proved, c, book, sample, lent_out.room + lent_out.start, a);
    if (!unchanged(&lent_book) || !unchanged(&lent_sample) || !lists_unchanged(c))
        report("memory lent for reading, or a guard byte around it, was changed", c);
    uint64_t expected_status = run(&reference, c, book, sample, expected_out.room + expected_out.start, &expected);
    if (expected_status != 0 && (memcmp(&expected, &before, sizeof before) != 0 || !unchanged(&expected_out)))
        report("the reference wrote beside a refusal", c);
    hold(c, status, a, expected_status, &expected);
    if (c->function == LIST)
        hold_to_reading(c, status);
    if (c->function == WRITE_BOOK)
        hold_to_reader(c, status, a);
    if (is_curtailed(c->function))
        hold_to_full_count(c, status, a);
    if (status == 0 && tells_size(c->function))
        hold_to_sizes(c, a);
    if (is_of_t07(c->function))
        hold_to_sides(c, status, a);
    count(c, status, a);
    return status;
}

/* ---- reports */

void report(const char *what, const struct call *c) {
    if (++differences > MOST_REPORTS)
        return;
    printf("DIFFERENCE, %s: %s\n", about[c->function].name, what);
    printf("  size %u level %u column %u severity %u resubmitted %u event %u limit %d section %u nth %u room %zu\n",
           (unsigned)c->size, (unsigned)c->level, (unsigned)c->column, (unsigned)c->severity, (unsigned)c->resubmitted,
           (unsigned)c->event, (int)c->limit, (unsigned)c->section, (unsigned)c->nth, c->out_len);
    printf("  lower column %u lower limit %d sigma %u\n", (unsigned)c->lower_column, (int)c->lower_limit,
           (unsigned)c->sigma);
    print_bytes("record", c->record, c->record_len);
    print_bytes("book", c->book, c->book_len);
    print_bytes("sample, readings or history", c->sample, c->sample_len);
    for (unsigned i = 0; c->function == WRITE_BOOK && i < SECTIONS; i++)
        print_bytes("rows", c->lists[i].bytes, c->lists[i].len);
    printf("  drawn from 0x%016llx (0: a fixed case)\n", (unsigned long long)draw_case_seed());
}

/* Prints what of the expected was counted, each after a space; false where one of them never was. */
static bool print_counts(unsigned expected, const unsigned long *counted, unsigned first, unsigned end) {
    bool ok = true;
    for (unsigned i = first; i < end; i++)
        if (expected & BIT(i)) {
            printf(" %u:%lu", i, counted[i]);
            ok = ok && counted[i] != 0;
        }
    return ok;
}

static bool summary_of(enum function f) {
    bool ok = tally[f].numbers[0] != 0;
    printf("%-19s %8lu calls, %7lu answered", about[f].name, tally[f].calls, tally[f].numbers[0]);
    if (about[f].judges) {
        printf(" (%lu accepted, %lu not)", tally[f].verdicts[1], tally[f].verdicts[0]);
        ok = ok && tally[f].verdicts[0] != 0 && tally[f].verdicts[1] != 0;
    }
    if (about[f].bytes != 0) {
        printf(", bytes:");
        ok = print_counts(about[f].bytes, tally[f].bytes, 0, BYTES) && ok;
    }
    printf(", refused:");
    ok = print_counts(about[f].numbers, tally[f].numbers, 1, NUMBERS) && ok;
    printf("%s\n", ok ? "" : "  SOMETHING NEVER OCCURRED");
    return ok;
}

static bool summary_of_fractions(void) {
    bool ok = true;
    printf("on a fraction, by the total, 0, 1 or more:");
    for (unsigned share = 2; share < SHARES; share++)
        for (unsigned run = 0; run < RUNS; run++) {
            printf("%s 1/%u after %u clean", share + run > 2 ? ";" : "", share, run);
            for (unsigned total = 0; total < TOTALS; total++) {
                printf(" %lu", fractions[share][run][total]);
                ok = ok && fractions[share][run][total] != 0;
            }
        }
    printf("%s\n", ok ? "" : "  SOMETHING NEVER OCCURRED");
    return ok;
}

bool summary(void) {
    bool ok = summary_of_fractions();
    ok = summary_of_books() && ok;
    ok = summary_of_curtailed() && ok;
    ok = summary_of_sizes() && ok;
    ok = summary_of_sides() && ok;
    unsigned long calls = 0;
    for (int f = 0; f < FUNCTIONS; f++) {
        ok = summary_of((enum function)f) && ok;
        calls += tally[f].calls;
    }
    printf("%lu calls compared, %lu differences\n", calls, differences);
    return ok && differences == 0;
}
