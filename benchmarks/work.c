/* The work that is timed. See work.h. */
#include "work.h"

#include "../include/hipomoake.h"
#include "../tests/terminal/random.h"
#include "../tests/terminal/reference.h"

#include <stdbool.h>
#include <stdio.h>
#include <string.h>

const struct side sides[SIDES] = {
    {hm_plan, hm_fractional_plan, hm_single, hm_curtailed, hm_staged, hm_sequential, hm_variables_upper,
     hm_variables_both, hm_sigma_both, hm_close_fractional, hm_check_book, hm_write_book, hm_list},
    {ref_plan, ref_fractional_plan, ref_single, ref_curtailed, ref_staged, ref_sequential, ref_variables_upper,
     ref_variables_both, ref_sigma_both, ref_close_fractional, ref_check_book, ref_write_book, ref_list},
};

enum { MOST_ITEMS = 14000, MOST_HISTORY = 1000000, STAGES = 7 };
enum { SECTIONS = 5, BANDS = 15, LEVELS = 7, LETTERS = 16, COLUMNS = 26, ITEM_COLUMNS = 16 };

/* The step from a lot to the next one is a prime, and reaches them all. */
enum { LOTS = 2 * BANDS * LEVELS * COLUMNS * 2, SCATTER = 7919 };

struct lot {
    uint32_t size, level, column, severity;
};

static struct lot lot, lots[LOTS];
static size_t calls, rows_len[SECTIONS], sample_len, history_len;
static uint8_t rows[SECTIONS][HM_BOOK_BYTES], book[HM_BOOK_BYTES], out[HM_BOOK_BYTES];
static uint8_t sample[2 * MOST_ITEMS], history[MOST_HISTORY], listed[MOST_HISTORY], supply[HM_RECORD_BYTES];
static uint32_t book_len;

static void put(uint8_t *bytes, size_t *len, unsigned number) {
    bytes[(*len)++] = (uint8_t)number;
    bytes[(*len)++] = (uint8_t)(number >> 8);
}

static void put_number(unsigned section, unsigned number) {
    put(rows[section], &rows_len[section], number);
}

static void put_numbers(unsigned section, const unsigned *numbers, unsigned n) {
    for (unsigned i = 0; i < n; i++)
        put_number(section, numbers[i]);
}

static void put_item(unsigned number) {
    put(sample, &sample_len, number);
}

/* The book of the rows that were put; its buffer has HM_BOOK_BYTES. */
static uint32_t write_rows(writer *by, uint8_t *bytes, uint32_t *len) {
    return by(rows[0], rows_len[0], rows[1], rows_len[1], rows[2], rows_len[2], rows[3], rows_len[3], rows[4],
              rows_len[4], bytes, HM_BOOK_BYTES, len);
}

static void make_book(void) {
    write_rows(ref_write_book, book, &book_len);
}

/* A lot with no sample, and a book with no entries. */
static void begin(struct lot of) {
    lot = of;
    sample_len = 0;
    memset(rows_len, 0, sizeof rows_len);
    make_book();
}

/* A book with one entry, from its row. */
static void one_entry(unsigned section, const unsigned *numbers, unsigned n) {
    put_numbers(section, numbers, n);
    make_book();
}

/* ---- plan look-ups: both ends of each band of Table 1, every level and column, normal and tightened, scattered */

static struct lot lot_at(unsigned i) {
    static const uint32_t up_to[] = {1,   8,    15,   25,    50,    90,     150,    280,
                                     500, 1200, 3200, 10000, 35000, 150000, 500000, UINT32_MAX};
    unsigned end = i % (2 * BANDS), rest = i / (2 * BANDS);
    uint32_t size = end % 2 == 0 ? up_to[end / 2] + 1 : up_to[end / 2 + 1];
    return (struct lot){size, rest % LEVELS, rest / LEVELS % COLUMNS, rest / LEVELS / COLUMNS};
}

static void prepare_plans(size_t size) {
    begin((struct lot){0});
    calls = size;
    for (unsigned i = 0; i < LOTS; i++)
        lots[i] = lot_at(i * SCATTER % LOTS);
}

static uint64_t run_plans(const struct side *side) {
    uint64_t digest = 0;
    for (size_t i = 0, at = 0; i < calls; i++, at = at + 1 < LOTS ? at + 1 : 0) {
        uint8_t letter = 0, cut = 0;
        uint16_t n = 0, ac = 0, table_n = 0;
        uint32_t status = side->plan(lots[at].size, lots[at].level, lots[at].column, lots[at].severity, book, book_len,
                                     &letter, &n, &ac, &table_n, &cut);
        digest += status + ((uint64_t)letter << 40) + ((uint64_t)n << 20) + ac;
        digest += ((uint64_t)table_n << 28) + ((uint64_t)cut << 12);
    }
    return digest;
}

/* Two in 26 of them are on a fraction, or refused for a column over 15. */
static uint64_t run_fractional_plans(const struct side *side) {
    uint64_t digest = 0;
    for (size_t i = 0, at = 0; i < calls; i++, at = at + 1 < LOTS ? at + 1 : 0) {
        uint8_t letter = 0, share = 0, cut = 0;
        uint16_t n = 0, ac = 0, table_n = 0;
        uint32_t status = side->fractional_plan(lots[at].size, lots[at].level, lots[at].column, lots[at].severity, book,
                                                book_len, &letter, &n, &ac, &share, &table_n, &cut);
        digest += status + ((uint64_t)share << 48) + ((uint64_t)letter << 40) + ((uint64_t)n << 20) + ac;
        digest += ((uint64_t)table_n << 28) + ((uint64_t)cut << 12);
    }
    return digest;
}

/* ---- samples: none is decided before its last item */

static uint64_t verdict(uint32_t status, uint8_t accepted, uint16_t used) {
    return status + ((uint64_t)accepted << 62) + ((uint64_t)used << 32);
}

static uint64_t judged(judge *by) {
    uint8_t accepted = 0;
    uint16_t used = 0;
    uint32_t status =
        by(lot.size, lot.level, lot.column, lot.severity, book, book_len, sample, sample_len, &accepted, &used);
    return verdict(status, accepted, used);
}

/* Tightened R, 0.025 takes 3,150 items; normal M, 0.15 takes 315. */
static void prepare_single(size_t size) {
    begin(size == 3150 ? (struct lot){500001, HM_LEVEL_III, HM_AQL_0_025, HM_TIGHTENED}
                       : (struct lot){10001, HM_LEVEL_II, HM_AQL_0_15, HM_NORMAL});
    for (size_t i = 0; i < size; i++)
        put_item(i == size / 2);
}

static uint64_t run_single(const struct side *side) {
    return judged(side->single);
}

/* The same items: the one bad item does not pass Ac, so that all are read. */
static uint64_t run_curtailed(const struct side *side) {
    return judged(side->curtailed);
}

/* Under normal R, 0.010 takes 2,000 items and L, 0.10 takes 200, both by 1/3: the one bad item passes after two lots.
 */
static void prepare_closed(size_t size) {
    bool full = size == 2000;
    begin(full ? (struct lot){500001, HM_LEVEL_III, HM_AQL_0_010, HM_NORMAL}
               : (struct lot){10000, HM_LEVEL_II, HM_AQL_0_10, HM_NORMAL});
    for (size_t i = 0; i < size; i++)
        put_item(i == size / 2);
    memcpy(supply, (const uint8_t[HM_RECORD_BYTES])HM_FRESH_RECORD, sizeof supply);
    supply[HM_RECORD_CLEAN_RUN] = 2;
    supply[HM_RECORD_CLEAN_LETTER] = full ? HM_LETTER_R : HM_LETTER_L;
    supply[HM_RECORD_CLEAN_COLUMN] = (uint8_t)lot.column;
}

/* Each run closes the lot on the same record. */
static uint64_t run_closed(const struct side *side) {
    uint8_t record[HM_RECORD_BYTES], accepted = 0, byte = 0;
    uint16_t used = 0;
    memcpy(record, supply, sizeof record);
    uint32_t status = side->close_fractional(record, sizeof record, HM_ORIGINAL, lot.size, lot.level, lot.column, book,
                                             book_len, sample, sample_len, &accepted, &used, &byte);
    uint64_t digest = verdict(status, accepted, used) + byte;
    for (size_t i = 0; i < sizeof record; i++)
        digest = 31 * digest + record[i];
    return digest;
}

/* Seven stages that accept only at the last. */
static void prepare_staged(size_t size) {
    unsigned stage = (unsigned)size / STAGES, numbers[4 + 3 * STAGES] = {HM_NORMAL, HM_LETTER_R, HM_AQL_0_15, STAGES};
    begin((struct lot){500001, HM_LEVEL_III, HM_AQL_0_15, HM_NORMAL});
    for (unsigned i = 0; i < STAGES; i++) {
        numbers[4 + i] = stage;
        numbers[4 + STAGES + i] = i + 1 < STAGES ? HM_MARK : 21;
        numbers[4 + 2 * STAGES + i] = 22;
    }
    one_entry(HM_STAGED_SECTION, numbers, 4 + 3 * STAGES);
    for (size_t i = 0; i < size; i++)
        put_item(i % 1000 == 999);
}

static uint64_t run_staged(const struct side *side) {
    return judged(side->staged);
}

/* Lines so far apart that only the last item decides. */
static void prepare_sequential(size_t size) {
    const unsigned numbers[] = {HM_NORMAL, HM_LETTER_R, HM_AQL_0_15, 65535, 65535, 1000, (unsigned)size, 31};
    begin((struct lot){500001, HM_LEVEL_III, HM_AQL_0_15, HM_NORMAL});
    one_entry(HM_SEQUENTIAL_SECTION, numbers, sizeof numbers / sizeof *numbers);
    for (size_t i = 0; i < size; i++)
        put_item(i % 100 == 99);
}

static uint64_t run_sequential(const struct side *side) {
    return judged(side->sequential);
}

static void put_readings(size_t n) {
    for (size_t i = 0; i < n; i++)
        put_item((uint16_t)(below(401) - 200));
}

static void prepare_variables(size_t size) {
    const unsigned numbers[] = {HM_NORMAL, HM_LETTER_R, HM_AQL_0_15, (unsigned)size, 1500};
    begin((struct lot){500001, HM_LEVEL_III, HM_AQL_0_15, HM_NORMAL});
    one_entry(HM_VARIABLES_SECTION, numbers, sizeof numbers / sizeof *numbers);
    put_readings(size);
}

static uint64_t run_variables(const struct side *side) {
    uint8_t accepted = 0;
    uint16_t used = 0;
    uint32_t status = side->variables(lot.size, lot.level, lot.column, lot.severity, book, book_len, sample, sample_len,
                                      300, &accepted, &used);
    return verdict(status, accepted, used);
}

/* A known spread, and two limits under two columns. */
static void prepare_sigma(size_t size) {
    const unsigned numbers[] = {HM_NORMAL, HM_LETTER_R, HM_AQL_0_10, (unsigned)size, 1500,
                                HM_NORMAL, HM_LETTER_R, HM_AQL_0_15, (unsigned)size, 1400};
    begin((struct lot){500001, HM_LEVEL_III, HM_AQL_0_15, HM_NORMAL});
    one_entry(HM_SIGMA_SECTION, numbers, sizeof numbers / sizeof *numbers);
    put_readings(size);
}

static uint64_t run_sigma(const struct side *side) {
    uint8_t accepted = 0;
    uint16_t used = 0;
    uint32_t status = side->sigma_both(lot.size, lot.level, lot.column, lot.column - 1, lot.severity, book, book_len,
                                       sample, sample_len, 300, -300, 1000, &accepted, &used);
    return verdict(status, accepted, used);
}

/* ---- a full book, or one with a tenth of its entries; the lot's variables plan is its last entry */

/* The places past the stages are 0. */
static void put_stages(unsigned stages) {
    unsigned numbers[1 + 3 * STAGES] = {stages};
    for (unsigned i = 0; i < stages; i++) {
        numbers[1 + i] = 100 * (i + 1);
        numbers[1 + STAGES + i] = i == 0 ? HM_MARK : i;
        numbers[1 + 2 * STAGES + i] = stages;
    }
    put_numbers(HM_STAGED_SECTION, numbers, 1 + 3 * STAGES);
}

static void put_body(unsigned section, unsigned stages) {
    static const unsigned bodies[SECTIONS][5] = {{80, 2}, {0}, {1750, 2247, 9570, 98, 9}, {2, 1500}, {2, 1500}};
    static const unsigned numbers[SECTIONS] = {2, 0, 5, 2, 2};
    if (section == HM_STAGED_SECTION)
        put_stages(stages);
    put_numbers(section, bodies[section], numbers[section]);
}

static void put_section(unsigned section, unsigned entries, unsigned sevens, unsigned threes) {
    unsigned columns = section < HM_SEQUENTIAL_SECTION ? COLUMNS : ITEM_COLUMNS;
    for (unsigned i = 0; i < entries; i++) {
        if (section != HM_REDUCED_SECTION)
            put_number(section, i / columns / LETTERS);
        put_number(section, i / columns % LETTERS);
        put_number(section, i % columns);
        put_body(section, i < sevens ? 7 : i < sevens + threes ? 3 : 2);
    }
}

/* Every reduced, sequential and variables plan that there can be, and staged ones until 32,768 bytes are full. */
static void prepare_rows(size_t size) {
    static const unsigned entries[SECTIONS] = {416, 322, 768, 768};
    bool full = size == HM_BOOK_BYTES;
    unsigned part = full ? 1 : 10;
    begin(full ? (struct lot){500001, HM_LEVEL_III, HM_AQL_10, HM_REDUCED}
               : (struct lot){280, HM_LEVEL_I, HM_AQL_1_5, HM_NORMAL});
    for (unsigned i = 0; i < SECTIONS; i++)
        put_section(i, entries[i] / part, 100 / part, 4 / part);
    memset(out, 0, sizeof out); /* what was written earlier must not pass for an answer */
}

static void prepare_book(size_t size) {
    prepare_rows(size);
    make_book();
    put_readings(2);
}

static uint64_t run_both(const struct side *side) {
    uint8_t accepted = 0;
    uint16_t used = 0;
    uint32_t status = side->variables_both(lot.size, lot.level, lot.column, lot.column - 1, lot.severity, book,
                                           book_len, sample, sample_len, 300, -300, &accepted, &used);
    return verdict(status, accepted, used);
}

static uint64_t run_check(const struct side *side) {
    return side->check_book(book, book_len);
}

static uint64_t run_write(const struct side *side) {
    uint32_t written = 0;
    uint64_t digest = write_rows(side->write_book, out, &written);
    digest = 31 * digest + written;
    for (size_t i = 0; i < written; i += 97)
        digest = 31 * digest + out[i];
    return digest;
}

/* ---- histories that go through all severities; each byte is drawn, and those that would be refused are left out */

static void draw_history(size_t size, const char *from) {
    uint8_t record[HM_RECORD_BYTES] = HM_FRESH_RECORD;
    for (history_len = 0; history_len < size;) {
        uint8_t byte = (uint8_t)(from[below((uint32_t)strlen(from))] - '0');
        if (ref_next(record, sizeof record, byte) == 0)
            history[history_len++] = byte;
    }
}

/* One supply: nine of ten lots are accepted, and most of them add 3. */
static void prepare_history(size_t size) {
    draw_history(size, "0000000000000000000000000000000000000000222333345567789");
}

/* Bytes that no branch can foresee. */
static void prepare_any_history(size_t size) {
    draw_history(size, "0123456789");
}

static uint64_t run_history(const struct side *side) {
    uint64_t digest = side->list(history, history_len, listed, history_len);
    for (size_t i = 0; i < history_len; i += 997)
        digest = 31 * digest + listed[i];
    return digest;
}

const struct work works[WORKS] = {
    {"plans looked up", "lots", 1000000, 1000, 0, prepare_plans, run_plans},
    {"plans looked up in the mode of fractions", "lots", 1000000, 1000, 0, prepare_plans, run_fractional_plans},
    {"a single sample", "items", 3150, 3150, 0, prepare_single, run_single},
    {"a curtailed sample, accepted", "items", 3150, 3150, 0, prepare_single, run_curtailed},
    {"a lot closed on a fraction", "items", 2000, 2000, 0, prepare_closed, run_closed},
    {"a staged sample", "items", 14000, 14000, 0, prepare_staged, run_staged},
    {"a sequential sample", "items", 3150, 3150, 0, prepare_sequential, run_sequential},
    {"variables", "readings", 50, 50, 0, prepare_variables, run_variables},
    {"two limits, a known spread", "readings", 50, 50, 0, prepare_sigma, run_sigma},
    {"a full book checked", "bytes", HM_BOOK_BYTES, HM_BOOK_BYTES, 500e3, prepare_book, run_check},
    {"a full book checked and searched", "bytes", HM_BOOK_BYTES, HM_BOOK_BYTES, 500e3, prepare_book, run_variables},
    {"two limits in a full book", "bytes", HM_BOOK_BYTES, HM_BOOK_BYTES, 500e3, prepare_book, run_both},
    {"a full book written", "bytes", HM_BOOK_BYTES, HM_BOOK_BYTES, 500e3, prepare_rows, run_write},
    {"a supply's history listed", "bytes", MOST_HISTORY, 10000, 20e6, prepare_history, run_history},
    {"a history of any bytes listed", "bytes", MOST_HISTORY, 10000, 20e6, prepare_any_history, run_history},
};

void print_lines(size_t lines) {
    for (size_t i = 0; i < lines; i++) {
        uint32_t kind = below(100);
        if (kind < 88)
            printf("%c %u %u %u %u\n", kind < 84 ? 'L' : 'R', (unsigned)(2 + below(below(2) ? 100000 : 1000)),
                   (unsigned)below(LEVELS), (unsigned)below(COLUMNS), (unsigned)below(below(12) ? 2 : 40));
        else if (kind < 92)
            printf("%c %u\n", kind < 90 ? 'S' : 'P', (unsigned)below(2));
        else
            puts(kind < 99 ? "C" : "L 1000 5 10");
    }
}
