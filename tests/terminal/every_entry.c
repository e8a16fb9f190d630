/*
 * T-03, and T-07's fifth list in it, what is small enough to try whole: the numbers of a row, keys, cuts, stages, and
 * mixtures of refusals.
 */
#include "../../include/hipomoake.h"
#include "book.h"
#include "cases.h"
#include "draw.h"
#include "rows.h"

#include <string.h>

enum { MARK = 65535 };

static struct call call;
static struct answer answer;

static void expect_status(uint64_t status, const char *what) {
    if (run_both(&call, &answer) != status)
        report(what, &call);
}

/* ---- rows that stay sound while one of their numbers goes through its range */

static const unsigned single[] = {8, 10, 5, 1}, lines[] = {1, 8, 10, 1, 1, 1, 1, 0}, gauged[] = {1, 8, 10, 3, 1000};

/* Sound for any number of stages. */
static const unsigned stages[ROW_NUMBERS] = {1, 8, 10, 2, 3, 3, 3, 3, 3, 3, 3, [RE_PLACE] = 1, 1, 1, 1, 1, 1, 1};

static const unsigned *const plain[SECTIONS] = {single, stages, lines, gauged, gauged};

/* One row in each list, so that the position of an entry is its section. */
static void begin(void) {
    memset(&call, 0, sizeof call);
    call.function = WRITE_BOOK;
    call.out_len = 400;
    for (unsigned section = 0; section < SECTIONS; section++)
        put_row(&call, section, plain[section]);
}

/* ---- every number of a row, at the ends of all ranges and beside them, and with a low byte that is in range */

static const unsigned values[] = {0,     1,     2,     3,     4,     5,     6,     7,     8,     9,    10,   14,   15,
                                  16,    17,    24,    25,    26,    27,    49,    50,    51,    255,  256,  257,  258,
                                  263,   271,   281,   513,   1999,  2000,  2001,  3149,  3150,  3151, 3999, 4000, 4001,
                                  32767, 32768, 32770, 59999, 60000, 60001, 65532, 65533, 65534, 65535};

/* The range of each number that has one of its own; those that a rule ties to others are held by run_both alone. */
static const struct {
    unsigned section, place, least, most;
} ranges[] = {{0, 0, 0, 15},     {0, 1, 0, 25},     {0, 2, 1, 3150},   {0, 3, 0, 65534},  {1, 0, 0, 2},
              {1, 1, 0, 15},     {1, 2, 0, 25},     {1, 3, 2, 7},      {1, 4, 1, 2000},   {1, 5, 1, 2000},
              {1, 6, 0, 65535},  {1, 10, 0, 65535}, {1, 13, 0, 65535}, {1, 17, 0, 65535}, {1, 20, 0, 65535},
              {1, 24, 0, 65535}, {2, 0, 0, 2},      {2, 1, 0, 15},     {2, 2, 0, 15},     {2, 3, 1, 65535},
              {2, 4, 1, 65535},  {2, 5, 1, 60000},  {2, 6, 1, 3150},   {3, 0, 0, 2},      {3, 1, 0, 15},
              {3, 2, 0, 15},     {3, 3, 2, 50},     {3, 4, 1, 4000},   {4, 0, 0, 2},      {4, 1, 0, 15},
              {4, 2, 0, 15},     {4, 3, 2, 50},     {4, 4, 1, 4000}};

static void every_range(void) {
    for (unsigned i = 0; i < sizeof ranges / sizeof *ranges; i++) {
        begin();
        for (unsigned j = 0; j < sizeof values / sizeof *values; j++) {
            bool sound = values[j] >= ranges[i].least && values[j] <= ranges[i].most;
            set_row(&call, ranges[i].section, 0, ranges[i].place, values[j]);
            expect_status(sound ? 0 : 12 | ranges[i].section << 8, "a number of a row, in its range or out of it");
        }
    }
}

/* In a row that is the only one, and in the last of two. */
static void every_number(void) {
    for (unsigned section = 0; section < SECTIONS; section++)
        for (unsigned place = 0; place < row_numbers[section]; place++)
            for (unsigned row = 0; row < 2; row++) {
                begin();
                if (row > 0)
                    put_row(&call, section, plain[section]);
                set_row(&call, section, 0, 0, 0);
                for (unsigned j = 0; j < sizeof values / sizeof *values; j++) {
                    set_row(&call, section, row, place, values[j]);
                    run_both(&call, &answer);
                }
            }
}

/* ---- every two keys of small numbers: the second must be after the first, compared number by number */

enum { DIGITS = 3 };

/* A key whose numbers are the digits of a code; codes are in the order of their keys. */
static void set_digits(unsigned section, size_t row, unsigned code) {
    for (unsigned place = key_numbers[section]; place-- > 0; code /= DIGITS)
        set_row(&call, section, row, place, code % DIGITS);
}

static void every_order(void) {
    for (unsigned section = 0; section < SECTIONS; section++) {
        unsigned codes = key_numbers[section] == 2 ? 9 : 27;
        begin();
        put_row(&call, section, plain[section]);
        for (unsigned first = 0; first < codes; first++)
            for (unsigned second = 0; second < codes; second++) {
                set_digits(section, 0, first);
                set_digits(section, 1, second);
                expect_status(first < second ? 0 : 12 | (section + 1) << 8, "keys rise from row to row");
            }
    }
}

/* ---- lists of every length up to three rows; the rows after a cut one count for nothing */

static void every_cut(void) {
    for (unsigned section = 0; section < SECTIONS; section++) {
        size_t row = 2 * row_numbers[section];
        begin();
        call.lists[section].len = 0;
        put_rows(&call, section, plain[section], 3);
        for (size_t len = 0; len <= 3 * row; len++) {
            call.lists[section].len = len;
            expect_status(len % row == 0 ? 0 : 12 | (section + len / row) << 8, "a list of rows, whole or cut short");
        }
    }
}

/* ---- every Ac and Re of two and of three stages, from a few numbers */

static void set_stage(unsigned stage, unsigned ac, unsigned re) {
    set_row(&call, HM_STAGED_SECTION, 0, AC_PLACE + stage, ac);
    set_row(&call, HM_STAGED_SECTION, 0, RE_PLACE + stage, re);
}

static void every_two_stages(void) {
    static const unsigned few[] = {0, 1, 2, 65533, 65534, MARK};
    enum { FEW = sizeof few / sizeof *few };
    begin();
    for (unsigned i = 0; i < FEW * FEW; i++)
        for (unsigned j = 0; j < FEW * FEW; j++) {
            set_stage(0, few[i / FEW], few[i % FEW]);
            set_stage(1, few[j / FEW], few[j % FEW]);
            run_both(&call, &answer);
        }
}

static void every_three_stages(void) {
    static const unsigned acs[] = {0, 1, 2, MARK};
    begin();
    set_row(&call, HM_STAGED_SECTION, 0, STAGES_PLACE, 3);
    for (unsigned i = 0; i < 4 * 4 * 4 * 4 * 4 * 4; i++) {
        set_stage(0, acs[i % 4], i / 4 % 4);
        set_stage(1, acs[i / 16 % 4], i / 64 % 4);
        set_stage(2, acs[i / 256 % 4], i / 1024);
        run_both(&call, &answer);
    }
}

/* ---- any of the lists bad, and short buffers: the first bad entry is told, then the length */

/* With 10 bytes for the counts, and 8, 20, 16, 10 and 10 for the entries, the book has 74. */
static void every_room(unsigned number) {
    for (call.out_len = 0; call.out_len <= 80; call.out_len++)
        expect_status(number != 0 ? number : call.out_len < 74 ? 11 : 0, "the first bad entry, then the length");
}

static void every_mixture(void) {
    for (unsigned bad = 0; bad < 1u << SECTIONS; bad++) {
        unsigned number = 0;
        begin();
        for (unsigned section = SECTIONS; section-- > 0;)
            if (bad >> section & 1) {
                set_row(&call, section, 0, key_numbers[section], 0);
                number = 12 | section << 8;
            }
        every_room(number);
    }
}

/* ---- reading: 12, then 6, then 11 */

/* Sections of 1, 2, 3, no and 2 entries, in a book that is sound, has a byte left over, or is too long. */
enum { SOUND, BROKEN, LONG, BOOKS };
static const uint32_t entries[SECTIONS] = {1, 2, 3, 0, 2};

static void put_kind_of_book(unsigned kind) {
    begin();
    clear_rows(&call);
    for (unsigned section = 0; section < SECTIONS; section++)
        put_rows(&call, section, plain[section], entries[section]);
    expect_status(0, "sections of 1, 2, 3, no and 2 entries");
    call.book_len = answer.written <= call.out_len ? answer.written : 0;
    memcpy(call.book, last_out(), call.book_len);
    call.book_len = kind == BROKEN ? call.book_len + 1 : kind == LONG ? HM_BOOK_BYTES + 1 : call.book_len;
}

/* A broken book is broken at its last byte, whichever way. */
static uint64_t reading_status(unsigned kind) {
    if (kind != SOUND)
        return 12 | (uint64_t)(call.book_len - 1) << 8;
    if (call.section >= SECTIONS || call.nth >= entries[call.section])
        return 6;
    return call.out_len < 2 * row_numbers[call.section] ? 11 : 0;
}

static void every_place(unsigned kind) {
    static const uint32_t nths[] = {0, 1, 2, 3, 4, 256, 65535, 65536, 65537, 0x80000000, UINT32_MAX};
    call.function = READ_ENTRY;
    for (unsigned i = 0; i < sizeof nths / sizeof *nths; i++)
        for (call.out_len = 0; call.out_len <= HM_ENTRY_BYTES + 2; call.out_len++) {
            call.nth = nths[i];
            expect_status(reading_status(kind), "12, then 6, then 11");
        }
}

static void every_count(unsigned kind) {
    uint32_t there = call.section < SECTIONS ? entries[call.section] : 0;
    call.function = COUNT_ENTRIES;
    expect_status(kind == SOUND ? 0 : reading_status(kind), "a count is refused by 12 alone");
    if (kind == SOUND && answer.count != there)
        report("how many entries a section has", &call);
}

static void every_reading(void) {
    static const uint32_t sections[] = {0, 1, 2, 3, 4, 5, 256, 65536, 0x80000000, UINT32_MAX};
    for (unsigned kind = 0; kind < BOOKS; kind++) {
        put_kind_of_book(kind);
        for (unsigned i = 0; i < sizeof sections / sizeof *sections; i++) {
            call.section = sections[i];
            every_count(kind);
            every_place(kind);
        }
    }
}

void every_entry(void) {
    draw_fixed();
    every_range();
    every_number();
    every_order();
    every_cut();
    every_two_stages();
    every_three_stages();
    every_mixture();
    every_reading();
}
