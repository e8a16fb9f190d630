/*
 * A bench's day through the C terminal: a small book written from its entries and read back; the plans of a lot, and
 * one that is the whole lot; a lot of each kind sentenced, one of them only until it is lost, others by two limits and
 * with a known spread; then lots closed on the record of their supply, with a history that is kept and listed; last,
 * small lots of another supply in the mode of fractions. Link with libterminal.a. What it prints stands in
 * terminal.out.
 */
#include "../include/hipomoake.h"

#include <stdio.h>
#include <string.h>

/* The lot: 1,000 items, level II, AQL 1.0. Table 1 gives letter J. */
enum { SIZE = 1000, LEVEL = HM_LEVEL_II, COLUMN = HM_AQL_1_0 };

/* A number in bytes: 16 bits, low byte first; and seven of them, the places that a row has for stages. */
#define NUMBER(x) (uint8_t)((x)&0xff), (uint8_t)((x) >> 8)
#define SEVEN(a, b, c, d, e, f, g) NUMBER(a), NUMBER(b), NUMBER(c), NUMBER(d), NUMBER(e), NUMBER(f), NUMBER(g)

/* clang-format off */

/* The entries of the book: five lists of rows. */
static const uint8_t reduced[] = { /* letter, column, n, Ac */
    NUMBER(HM_LETTER_J), NUMBER(HM_AQL_1_0), NUMBER(32), NUMBER(1),
};
static const uint8_t staged[] = { /* severity, letter, column, stages, seven sizes, seven Ac, seven Re */
    NUMBER(HM_NORMAL), NUMBER(HM_LETTER_H), NUMBER(HM_AQL_1_0), NUMBER(5),
    SEVEN(13, 13, 13, 13, 13, 0, 0), SEVEN(HM_MARK, 0, 1, 2, 4, 0, 0), SEVEN(3, 3, 4, 4, 5, 0, 0),
    NUMBER(HM_NORMAL), NUMBER(HM_LETTER_J), NUMBER(HM_AQL_1_0), NUMBER(2),
    SEVEN(50, 50, 0, 0, 0, 0, 0), SEVEN(0, 3, 0, 0, 0, 0, 0), SEVEN(3, 4, 0, 0, 0, 0, 0),
};
static const uint8_t sequential[] = { /* severity, letter, column, hA, hR, g, nt, At */
    NUMBER(HM_NORMAL), NUMBER(HM_LETTER_J), NUMBER(HM_AQL_1_0),
    NUMBER(1750), NUMBER(2247), NUMBER(9570), NUMBER(98), NUMBER(9),
};
static const uint8_t variables[] = { /* severity, letter, column, n, K */
    NUMBER(HM_NORMAL), NUMBER(HM_LETTER_J), NUMBER(HM_AQL_1_0), NUMBER(3), NUMBER(3500),
    NUMBER(HM_NORMAL), NUMBER(HM_LETTER_J), NUMBER(HM_AQL_2_5), NUMBER(3), NUMBER(2000),
};
static const uint8_t sigma_plans[] = { /* the same, for a spread that is known */
    NUMBER(HM_NORMAL), NUMBER(HM_LETTER_J), NUMBER(HM_AQL_1_0), NUMBER(2), NUMBER(1000),
};

/* A key typed twice does not rise: the second row is bad. */
static const uint8_t key_twice[] = {
    NUMBER(HM_NORMAL), NUMBER(HM_LETTER_J), NUMBER(HM_AQL_1_0), NUMBER(3), NUMBER(3500),
    NUMBER(HM_NORMAL), NUMBER(HM_LETTER_J), NUMBER(HM_AQL_1_0), NUMBER(4), NUMBER(3500),
};

/* clang-format on */

static uint8_t book[HM_BOOK_BYTES];
static uint32_t book_len;

static const char severity_letters[] = "NTRX";
static const char *const aqls[] = {"0.010", "0.015", "0.025", "0.040", "0.065", "0.10", "0.15", "0.25", "0.40",
                                   "0.65",  "1.0",   "1.5",   "2.5",   "4.0",   "6.5",  "10",   "15",   "25",
                                   "40",    "65",    "100",   "150",   "250",   "400",  "650",  "1000"};
static uint8_t sample[2 * 3150];

/* A sample of n items, the first of which do not conform. Gives its bytes. */
static size_t draw_sample(size_t n, size_t bad) {
    memset(sample, 0, 2 * n);
    for (size_t i = 0; i < bad; i++)
        sample[2 * i] = 1;
    return 2 * n;
}

/* True for an answer; a refusal is printed. */
static int is_answered(const char *what, uint32_t status) {
    if (status != HM_ANSWERED)
        printf("%-16s refused %u at %u\n", what, (unsigned)HM_NUMBER(status), (unsigned)HM_PLACE(status));
    return status == HM_ANSWERED;
}

/* ---- the book: written from its entries, and read back */

static void write_book(const char *what, const uint8_t *fourth, size_t fourth_len) {
    uint32_t status = hm_write_book(reduced, sizeof reduced, staged, sizeof staged, sequential, sizeof sequential,
                                    fourth, fourth_len, sigma_plans, sizeof sigma_plans, book, sizeof book, &book_len);
    if (is_answered(what, status))
        printf("%-16s %u bytes\n", what, (unsigned)book_len);
}

/* A row of stages begins with their sizes. */
static void print_stages(const uint8_t *row, unsigned stages) {
    for (unsigned i = 0; i < stages; i++) {
        unsigned ac = HM_STAGE_AC(row, i);
        printf("%s %u items, Ac ", i > 0 ? ";" : "", HM_STAGE_SIZE(row, i));
        if (ac == HM_MARK)
            printf("#"); /* no acceptance at this stage */
        else
            printf("%u", ac);
        printf(", Re %u", HM_STAGE_RE(row, i));
    }
}

/* The key of a reduced single has no severity. */
static void print_entry(const char *what, unsigned section, const uint8_t *row, unsigned numbers) {
    static const char *const names[][5] = {[HM_REDUCED_SECTION] = {"n", "Ac"},
                                           [HM_SEQUENTIAL_SECTION] = {"hA", "hR", "g", "nt", "At"},
                                           [HM_VARIABLES_SECTION] = {"n", "K"},
                                           [HM_SIGMA_SECTION] = {"n", "K"}};
    unsigned keys = section == HM_REDUCED_SECTION ? 2 : 3;
    char severity = severity_letters[section == HM_REDUCED_SECTION ? HM_REDUCED : HM_NUMBER_AT(row, 0)];
    printf("%-16s severity %c, letter %c, AQL %s:", what, severity, HM_LETTERS[HM_NUMBER_AT(row, keys - 2)],
           aqls[HM_NUMBER_AT(row, keys - 1)]);
    if (section == HM_STAGED_SECTION)
        print_stages(HM_ENTRY_STAGES(row), HM_NUMBER_AT(row, keys));
    else
        for (unsigned i = keys; i < numbers; i++)
            printf("%s %s %u", i > keys ? "," : "", names[section][i - keys], HM_NUMBER_AT(row, i));
    printf("\n");
}

static void print_section(const char *what, unsigned section) {
    uint8_t row[HM_ENTRY_BYTES];
    uint32_t count = 0, numbers = 0;
    if (!is_answered(what, hm_count_entries(book, book_len, section, &count)))
        return;
    for (unsigned nth = 0; nth < count; nth++)
        if (is_answered(what, hm_read_entry(book, book_len, section, nth, row, sizeof row, &numbers)))
            print_entry(what, section, row, numbers);
}

static void print_book(void) {
    if (is_answered("book, checked", hm_check_book(book, book_len)))
        printf("%-16s sound\n", "book, checked");
    print_section("book, reduced", HM_REDUCED_SECTION);
    print_section("book, staged", HM_STAGED_SECTION);
    print_section("book, sequential", HM_SEQUENTIAL_SECTION);
    print_section("book, variables", HM_VARIABLES_SECTION);
    print_section("book, sigma", HM_SIGMA_SECTION);
}

/* ---- plans: what to draw */

static void print_letter(void) {
    uint8_t letter;
    if (is_answered("letter", hm_letter(SIZE, LEVEL, &letter)))
        printf("%-16s %c\n", "letter", HM_LETTERS[letter]);
}

/* Where the size was cut to the lot, the table's own (under reduced the book's) stands beside it. */
static void print_size(uint16_t n, uint16_t table_n, uint8_t cut) {
    if (cut)
        printf("n %u (the whole lot, of %u)", n, table_n);
    else
        printf("n %u", n);
}

static void print_single_plan(const char *what, uint32_t size, uint32_t column, uint32_t severity) {
    uint8_t letter, cut;
    uint16_t n, ac, table_n;
    uint32_t status = hm_plan(size, LEVEL, column, severity, book, book_len, &letter, &n, &ac, &table_n, &cut);
    if (!is_answered(what, status))
        return;
    printf("%-16s letter %c, ", what, HM_LETTERS[letter]);
    print_size(n, table_n, cut);
    printf(", Ac %u\n", ac);
}

static void print_staged_plan(void) {
    uint8_t letter, stages, row[HM_STAGED_ROW_BYTES];
    uint32_t status = hm_staged_plan(SIZE, LEVEL, COLUMN, HM_NORMAL, book, book_len, &letter, &stages, row, sizeof row);
    if (!is_answered("staged plan", status))
        return;
    printf("%-16s", "staged plan");
    print_stages(row, stages);
    printf("\n");
}

static void print_other_plans(void) {
    uint8_t letter;
    uint16_t ha, hr, g, nt, at, n, k;
    uint32_t status =
        hm_sequential_plan(SIZE, LEVEL, COLUMN, HM_NORMAL, book, book_len, &letter, &ha, &hr, &g, &nt, &at);
    if (is_answered("sequential plan", status))
        printf("%-16s hA %u, hR %u, g %u, nt %u, At %u\n", "sequential plan", ha, hr, g, nt, at);
    status = hm_variables_plan(SIZE, LEVEL, COLUMN, HM_NORMAL, book, book_len, &letter, &n, &k);
    if (is_answered("variables plan", status))
        printf("%-16s n %u, k %u\n", "variables plan", n, k);
}

/* ---- verdicts */

static void print_verdict(const char *what, uint32_t status, uint8_t accepted, uint16_t used) {
    if (is_answered(what, status))
        printf("%-16s %s after %u items\n", what, accepted ? "accepted" : "not accepted", used);
}

static void judge_items(void) {
    uint8_t accepted = 0;
    uint16_t used = 0;
    size_t len = draw_sample(80, 1);
    uint32_t status = hm_single(SIZE, LEVEL, COLUMN, HM_NORMAL, book, book_len, sample, len, &accepted, &used);
    print_verdict("single", status, accepted, used);
    len = draw_sample(100, 2);
    status = hm_staged(SIZE, LEVEL, COLUMN, HM_NORMAL, book, book_len, sample, len, &accepted, &used);
    print_verdict("staged", status, accepted, used);
    len = draw_sample(50, 3);
    status = hm_staged(SIZE, LEVEL, COLUMN, HM_NORMAL, book, book_len, sample, len, &accepted, &used);
    print_verdict("staged, 3 bad", status, accepted, used);
    len = draw_sample(19, 0);
    status = hm_sequential(SIZE, LEVEL, COLUMN, HM_NORMAL, book, book_len, sample, len, &accepted, &used);
    print_verdict("sequential", status, accepted, used);
    len = draw_sample(20, 0);
    status = hm_sequential(SIZE, LEVEL, COLUMN, HM_NORMAL, book, book_len, sample, len, &accepted, &used);
    print_verdict("one item more", status, accepted, used);
}

/* Items as they come off the bench, the third bad one tenth: 7 says that the lot is not decided yet. */
static void judge_until_lost(void) {
    uint8_t letter, cut, accepted = 0;
    uint16_t n, ac, table_n, used = 0;
    uint32_t status = hm_plan(SIZE, LEVEL, COLUMN, HM_NORMAL, book, book_len, &letter, &n, &ac, &table_n, &cut);
    if (!is_answered("plan", status))
        return;
    status = HM_BAD_LENGTH;
    draw_sample(n, 2);
    sample[2 * 9] = 1;
    for (size_t items = 1; HM_NUMBER(status) == HM_BAD_LENGTH && items <= n; items++)
        status = hm_curtailed(SIZE, LEVEL, COLUMN, HM_NORMAL, book, book_len, sample, 2 * items, &accepted, &used);
    print_verdict("curtailed", status, accepted, used);
}

static void judge_readings(void) {
    static const uint8_t readings[] = {NUMBER(10), NUMBER(12), NUMBER(14)};
    uint8_t accepted = 0, both = 0;
    uint16_t used = 0;
    double mean = 0, variance = 0;
    uint32_t status = hm_variables_upper(SIZE, LEVEL, COLUMN, HM_NORMAL, book, book_len, readings, sizeof readings, 19,
                                         &accepted, &used);
    print_verdict("variables, upper", status, accepted, used);
    status = hm_variables_lower(SIZE, LEVEL, COLUMN, HM_NORMAL, book, book_len, readings, sizeof readings, 6, &accepted,
                                &used);
    print_verdict("variables, lower", status, accepted, used);
    status = hm_variables_both(SIZE, LEVEL, HM_AQL_2_5, COLUMN, HM_NORMAL, book, book_len, readings, sizeof readings,
                               17, 5, &accepted, &used);
    print_verdict("variables, both", status, accepted, used);
    if (is_answered("screen", hm_screen(readings, sizeof readings, &mean, &variance, &both)) && both)
        printf("%-16s mean %.3f, variance %.3f\n", "screen", mean, variance);
}

/* The gauge's spread is known: one gauge unit, 1,000 thousandths of it. */
static void judge_with_known_spread(void) {
    static const uint8_t readings[] = {NUMBER(10), NUMBER(12)};
    uint8_t accepted = 0;
    uint16_t used = 0;
    uint32_t status = hm_sigma_upper(SIZE, LEVEL, COLUMN, HM_NORMAL, book, book_len, readings, sizeof readings, 12,
                                     1000, &accepted, &used);
    print_verdict("sigma, upper", status, accepted, used);
    status = hm_sigma_lower(SIZE, LEVEL, COLUMN, HM_NORMAL, book, book_len, readings, sizeof readings, 11, 1000,
                            &accepted, &used);
    print_verdict("sigma, lower", status, accepted, used);
    status = hm_sigma_both(SIZE, LEVEL, COLUMN, COLUMN, HM_NORMAL, book, book_len, readings, sizeof readings, 12, 10,
                           1000, &accepted, &used);
    print_verdict("sigma, both", status, accepted, used);
}

/* ---- a supply: its record, and its history from the bytes that are told */

enum { MOST_HISTORY = 64 };

static uint8_t supply[HM_RECORD_BYTES] = HM_FRESH_RECORD, history[MOST_HISTORY];
static size_t history_len;

static void order(const char *what, uint8_t event) {
    if (is_answered(what, hm_next(supply, sizeof supply, event)))
        history[history_len++] = event;
}

static void print_closed(const char *what, uint32_t status, uint8_t accepted, uint16_t used) {
    if (is_answered(what, status))
        printf("%-16s %s after %u items: byte %u, severity %c, score %u\n", what,
               accepted ? "accepted" : "not accepted", used, history[history_len++],
               severity_letters[supply[HM_RECORD_SEVERITY]], supply[HM_RECORD_SCORE]);
}

/* The plan at the record's severity says how many items to draw. */
static void close_single(uint32_t resubmitted, size_t bad) {
    uint8_t letter, cut, accepted = 0;
    uint16_t n, ac, table_n, used = 0;
    uint32_t status =
        hm_plan(SIZE, LEVEL, COLUMN, supply[HM_RECORD_SEVERITY], book, book_len, &letter, &n, &ac, &table_n, &cut);
    if (!is_answered("plan", status))
        return;
    size_t len = draw_sample(n, bad);
    status = hm_close_single(supply, sizeof supply, resubmitted, SIZE, LEVEL, COLUMN, book, book_len, sample, len,
                             &accepted, &used, &history[history_len]);
    print_closed(resubmitted ? "resubmitted" : "closed", status, accepted, used);
}

/* Of two stages acceptance at the first adds 3 to the score, of three or more by the third: a lot of 500 has five. */
static void close_staged(uint32_t size, size_t n, size_t bad) {
    uint8_t accepted = 0;
    uint16_t used = 0;
    size_t len = draw_sample(n, bad);
    uint32_t status = hm_close_staged(supply, sizeof supply, HM_ORIGINAL, size, LEVEL, COLUMN, book, book_len, sample,
                                      len, &accepted, &used, &history[history_len]);
    print_closed("closed, staged", status, accepted, used);
}

/* Counting stops at the third bad item, the last of these. */
static void close_curtailed(size_t n) {
    uint8_t accepted = 0;
    uint16_t used = 0;
    size_t len = draw_sample(n, 2);
    sample[len - 2] = 1;
    uint32_t status = hm_close_curtailed(supply, sizeof supply, HM_ORIGINAL, SIZE, LEVEL, COLUMN, book, book_len,
                                         sample, len, &accepted, &used, &history[history_len]);
    print_closed("curtailed", status, accepted, used);
}

/* Clean lots of a steady supply with permission lead to reduced, and a lot not accepted back to normal. */
static void close_lots(void) {
    order("steady", HM_STEADY);
    order("permission", HM_PERMISSION);
    close_single(HM_ORIGINAL, 1);
    close_staged(SIZE, 50, 0);
    close_staged(500, 39, 1);
    close_single(HM_ORIGINAL, 3);
    close_single(HM_RESUBMITTED, 0);
    close_single(HM_ORIGINAL, 2);
    for (unsigned lot = 0; lot < 10; lot++)
        close_single(HM_ORIGINAL, 0);
    close_single(HM_ORIGINAL, 1);
    close_single(HM_ORIGINAL, 2);
    close_curtailed(10);
}

static void list_history(void) {
    uint8_t severities[MOST_HISTORY];
    uint64_t status = hm_list(history, history_len, severities, sizeof severities);
    if (status != HM_ANSWERED) {
        printf("%-16s refused %u at %llu\n", "list", (unsigned)HM_LIST_NUMBER(status),
               (unsigned long long)HM_LIST_PLACE(status));
        return;
    }
    printf("%-16s", "history");
    for (size_t i = 0; i < history_len; i++)
        printf(" %u", history[i]);
    printf("\n%-16s", "severities");
    for (size_t i = 0; i < history_len; i++)
        printf(" %c", severity_letters[severities[i]]);
    printf("\n");
}

/* ---- a supply of small lots, in the mode of fractions: 12 items, level II, AQL 6.5. Table 1 gives letter B */

enum { SMALL_SIZE = 12, SMALL_COLUMN = HM_AQL_6_5 };

static uint8_t small_supply[HM_RECORD_BYTES] = HM_FRESH_RECORD;

/* The items to draw; a fraction is printed as such. */
static size_t print_fractional_plan(const char *what, uint32_t size, uint32_t level) {
    uint8_t letter, share, cut;
    uint16_t n, ac, table_n;
    uint32_t status = hm_fractional_plan(size, level, SMALL_COLUMN, small_supply[HM_RECORD_SEVERITY], book, book_len,
                                         &letter, &n, &ac, &share, &table_n, &cut);
    if (!is_answered(what, status))
        return 0;
    printf("%-16s letter %c, ", what, HM_LETTERS[letter]);
    print_size(n, table_n, cut);
    printf(", Ac ");
    if (share == HM_WHOLE_AC)
        printf("%u\n", ac);
    else
        printf("1/%u\n", share);
    return n;
}

/* What closing would say, with the record as it is. */
static void judge_small(size_t n, size_t bad) {
    uint8_t accepted = 0;
    uint16_t used = 0;
    size_t len = draw_sample(n, bad);
    uint32_t status = hm_fractional(small_supply, sizeof small_supply, SMALL_SIZE, LEVEL, SMALL_COLUMN, book, book_len,
                                    sample, len, &accepted, &used);
    print_verdict("small, judged", status, accepted, used);
}

static void close_small(size_t n, size_t bad) {
    uint8_t accepted = 0, byte = 0;
    uint16_t used = 0;
    size_t len = draw_sample(n, bad);
    uint32_t status = hm_close_fractional(small_supply, sizeof small_supply, HM_ORIGINAL, SMALL_SIZE, LEVEL,
                                          SMALL_COLUMN, book, book_len, sample, len, &accepted, &used, &byte);
    if (is_answered("small, closed", status))
        printf("%-16s %s with %zu bad of %u: byte %u, score %u, clean run %u\n", "small, closed",
               accepted ? "accepted" : "not accepted", bad, used, byte, small_supply[HM_RECORD_SCORE],
               small_supply[HM_RECORD_CLEAN_RUN]);
}

/* Two clean lots let one item of the third pass; the fourth has none before it. */
static void close_small_lots(void) {
    size_t n = print_fractional_plan("small lots", SMALL_SIZE, LEVEL);
    print_fractional_plan("small, lot of 2", 2, HM_LEVEL_III); /* letter B too, and fewer items than it has */
    judge_small(n, 1);
    close_small(n, 0);
    close_small(n, 0);
    judge_small(n, 1);
    close_small(n, 1);
    close_small(n, 1);
}

int main(void) {
    write_book("book, written", variables, sizeof variables);
    write_book("book, key twice", key_twice, sizeof key_twice); /* refused, and the book stays as it was */
    print_book();
    print_letter();
    print_single_plan("plan, normal", SIZE, COLUMN, HM_NORMAL);
    print_single_plan("plan, tightened", SIZE, COLUMN, HM_TIGHTENED);
    print_single_plan("plan, reduced", SIZE, COLUMN, HM_REDUCED);
    print_single_plan("plan, lot of 10", 10, HM_AQL_0_10, HM_NORMAL);
    print_staged_plan();
    print_other_plans();
    judge_items();
    judge_until_lost();
    judge_readings();
    judge_with_known_spread();
    close_lots();
    list_history();
    history[history_len++] = HM_CORRECTIVE; /* a corrective order, though inspection is not stopped */
    list_history();
    close_small_lots();
    return 0;
}
