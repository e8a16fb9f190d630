/* T-03, worked, with T-07's fifth list: rows of document 01, of ISO 8422 and of ISO 3951-1, and their book's bytes. */
#include "../../include/hipomoake.h"
#include "book.h"
#include "cases.h"
#include "draw.h"
#include "packed.h"
#include "rows.h"

#include <string.h>

enum { MARK = 65535, NORMAL = 0, REDUCED = 2, STOPPED = 3, LETTER_S = 16 };

static struct call call;
static struct answer answer;

static void expect(bool holds, const char *what) {
    if (!holds)
        report(what, &call);
}

static void expect_status(uint64_t status, const char *what) {
    expect(run_both(&call, &answer) == status, what);
}

static void begin(enum function function) {
    call.function = function;
    clear_rows(&call);
    call.book_len = call.sample_len = call.record_len = 0;
    call.out_len = SAMPLE_ROOM;
}

/* ---- one entry of each kind, for letter J */

static const unsigned single[] = {8, 10, 32, 1};
static const unsigned gauged[] = {NORMAL, 8, 5, 28, 2580};

/* ISO 3951-1, table 5: letter J at AQL 1.5 takes 19 readings, with k 1.677, where the spread is known. */
static const unsigned known[] = {NORMAL, 8, 11, 19, 1677};

/* Document 01: stages of 3 with (#,2)(0,3)(0,3)(1,3)(3,4). */
static const unsigned five_stages[] = {NORMAL, 8, 10, 5, 3, 3, 3, 3, 3, 0, 0, MARK, 0,
                                       0,      1, 3,  0, 0, 2, 3, 3, 3, 4, 0, 0};

/* Document 01: hA 1.750, hR 2.247, g 0.0957, nt 98, At 9. */
static const unsigned insulators[] = {NORMAL, 8, 10, 1750, 2247, 9570, 98, 9};

static const unsigned *const one_of_each[SECTIONS] = {single, five_stages, insulators, gauged, known};

/* With the fifth section, and without it. */
enum { THEIR_BYTES = 92, OLD_BYTES = 80 };

/* clang-format off */
static const uint8_t their_book[THEIR_BYTES] = {
    1, 0,  8, 0, 10, 0,  32, 0, 1, 0,
    1, 0,  0, 0, 8, 0, 10, 0,  5, 0,  3, 0, 3, 0, 3, 0, 3, 0, 3, 0,
           255, 255, 2, 0,  0, 0, 3, 0,  0, 0, 3, 0,  1, 0, 3, 0,  3, 0, 4, 0,
    1, 0,  0, 0, 8, 0, 10, 0,  0xd6, 6, 0xc7, 8, 0x62, 0x25, 98, 0, 9, 0,
    1, 0,  0, 0, 8, 0, 5, 0,  28, 0, 0x14, 10,
    1, 0,  0, 0, 8, 0, 11, 0,  19, 0, 0x8d, 6,
};
/* clang-format on */

static void put_one_of_each(void) {
    for (unsigned section = 0; section < SECTIONS; section++)
        put_row(&call, section, one_of_each[section]);
}

static void expect_their_book(const char *what) {
    expect_status(0, what);
    expect(answer.written == THEIR_BYTES && memcmp(last_out(), their_book, THEIR_BYTES) == 0, what);
}

static void written_out(void) {
    begin(WRITE_BOOK);
    put_one_of_each();
    expect_their_book("one entry of each kind: their bytes");
    for (call.out_len = 0; call.out_len < THEIR_BYTES; call.out_len++)
        expect_status(11, "a buffer that is shorter than the book");
    for (; call.out_len <= THEIR_BYTES + 20; call.out_len++)
        expect_their_book("a buffer as long as the book is enough");
    for (unsigned place = SIZE_PLACE; place < ROW_NUMBERS; place += STAGES) {
        set_row(&call, HM_STAGED_SECTION, 0, place + 5, MARK);
        set_row(&call, HM_STAGED_SECTION, 0, place + 6, 4660 + place);
    }
    expect_their_book("places past the five stages count for nothing");
}

/* Where there is no sigma plan the book is as it was before there were any: four sections and nothing after them. */
static void four_sections_written(void) {
    begin(WRITE_BOOK);
    put_one_of_each();
    call.lists[SIGMA_SECTION].len = 0;
    for (call.out_len = OLD_BYTES - 2; call.out_len <= THEIR_BYTES; call.out_len++) {
        expect_status(call.out_len < OLD_BYTES ? 11 : 0, "a book without sigma plans, in its room");
        expect(call.out_len < OLD_BYTES || answer.written == OLD_BYTES, "no fifth count is written for no entries");
        expect(call.out_len < OLD_BYTES || memcmp(last_out(), their_book, OLD_BYTES) == 0, "the four sections' bytes");
    }
}

/* A sigma plan alone stands after four counts of 0. */
static void fifth_section_written(void) {
    static const uint8_t alone[] = {0, 0, 0, 0, 0, 0, 0, 0, 1, 0, 0, 0, 8, 0, 11, 0, 19, 0, 0x8d, 6};
    begin(WRITE_BOOK);
    put_row(&call, SIGMA_SECTION, known);
    for (call.out_len = 0; call.out_len < sizeof alone; call.out_len++)
        expect_status(11, "a sigma plan alone has twenty bytes");
    for (; call.out_len < sizeof alone + 4; call.out_len++) {
        expect_status(0, "a sigma plan alone");
        expect(answer.written == 20 && memcmp(last_out(), alone, sizeof alone) == 0, "the bytes of a sigma plan alone");
    }
    for (call.lists[SIGMA_SECTION].len = 1; call.lists[SIGMA_SECTION].len < 10; call.lists[SIGMA_SECTION].len++)
        expect_status(12, "a first sigma row that is cut short");
}

/* Each of the first four sections of the empty lists has its count alone. */
static void nothing_written(void) {
    static const uint8_t no_book[] = HM_NO_BOOK;
    begin(WRITE_BOOK);
    for (call.out_len = 0; call.out_len < sizeof no_book; call.out_len++)
        expect_status(11, "four counts of 0 have eight bytes");
    expect_status(0, "the book of no entries");
    expect(answer.written == 8 && memcmp(last_out(), no_book, 8) == 0, "the book of no entries is HM_NO_BOOK");
}

/* ---- the same book, read */

static void put_their_book(void) {
    memcpy(call.book, their_book, THEIR_BYTES);
    call.book_len = THEIR_BYTES;
}

/* The same entries but for the last. */
static void put_old_book(void) {
    put_their_book();
    call.book_len = OLD_BYTES;
}

static void counted(void) {
    static const uint32_t others[] = {5, 6, 256, 260, 65536, 65540, 0x80000000, 0x80000004, UINT32_MAX};
    begin(COUNT_ENTRIES);
    put_their_book();
    for (call.section = 0; call.section < SECTIONS; call.section++) {
        expect_status(0, "the entries of a section");
        expect(answer.count == 1, "one entry of each kind");
    }
    for (unsigned i = 0; i < sizeof others / sizeof *others; i++) {
        call.section = others[i];
        expect_status(0, "the entries of a section that is not there");
        expect(answer.count == 0, "a section that is not there has none");
    }
    put_old_book();
    for (call.section = 0; call.section < SECTIONS; call.section++) {
        expect_status(0, "the entries of a section of a book without sigma plans");
        expect(answer.count == (call.section < SIGMA_SECTION), "a book of four sections has no sigma plans");
    }
}

static void expect_row(const unsigned *numbers, unsigned n, const char *what) {
    expect_status(0, what);
    expect(answer.numbers == n, "how many numbers a row has");
    for (unsigned i = 0; i < n; i++)
        expect(HM_NUMBER_AT(last_out(), i) == numbers[i], what);
}

static void read_out(void) {
    static const unsigned numbers[SECTIONS] = {4, 25, 8, 5, 5};
    begin(READ_ENTRY);
    put_their_book();
    for (call.section = 0; call.section < SECTIONS; call.section++) {
        call.nth = 0;
        for (call.out_len = 0; call.out_len < 2 * numbers[call.section]; call.out_len++)
            expect_status(11, "a row that is too short");
        for (; call.out_len <= HM_ENTRY_BYTES + 4; call.out_len++)
            expect_row(one_of_each[call.section], numbers[call.section], "one entry of each kind: its row");
        for (call.nth = 1; call.nth != 0; call.nth *= 2)
            expect_status(6, "a section of one entry has no other");
    }
    call.nth = 0;
    expect_status(6, "a section that is not there has no entry");
    put_old_book();
    call.section = SIGMA_SECTION;
    for (call.out_len = 0; call.out_len <= HM_ENTRY_BYTES; call.out_len++)
        expect_status(6, "a book of four sections has no sigma plan to show");
    call.section = HM_VARIABLES_SECTION;
    expect_row(gauged, 5, "a book of four sections has its variables plan as before");
}

/* What was written is a book to look plans up in. */
static void used(void) {
    set_lot(&call, STAGED, 1000, 5, 10, NORMAL);
    put_their_book();
    for (unsigned i = 0; i < 6; i++)
        put_item(&call, 0);
    expect_status(0, "document 01: clean accepts at 6");
    expect(answer.accepted == 1 && answer.used == 6, "document 01: clean accepts at 6");
    call.function = SEQUENTIAL;
    while (call.sample_len < 2 * 19)
        put_item(&call, 0);
    expect_status(0, "document 01: clean items accept at 19");
    expect(answer.accepted == 1 && answer.used == 19, "document 01: clean items accept at 19");
    call.function = PLAN;
    call.severity = REDUCED;
    expect_status(0, "a reduced plan of the book");
    expect(answer.letter == 8 && answer.n == 32 && answer.ac == 1, "a reduced plan of the book");
}

/* ---- worked: what no book can hold. 9.3786 - 1.750 is 7.6, 9.3786 + 2.247 is 11.6: At is 7 to 11. */

static void last_number(void) {
    begin(WRITE_BOOK);
    put_one_of_each();
    for (unsigned at = 0; at <= 20; at++) {
        set_row(&call, HM_SEQUENTIAL_SECTION, 0, 7, at);
        expect_status(at >= 7 && at <= 11 ? 0 : 12 | 2 << 8, "document 01's sequential plan with another At");
    }
}

/* (0,3) at the third stage of document 01's five, and (3,4) at the last, with other numbers in their place. */
static void stage_numbers(void) {
    static const struct {
        unsigned stage, ac, re, number;
    } worked[] = {{2, 0, 3, 0},  {2, MARK, 3, 12}, {2, 1, 3, 0},     {2, 2, 3, 12},        {2, 0, 2, 12},
                  {2, 0, 4, 12}, {2, 3, 3, 12},    {2, 0, MARK, 12}, {4, MARK, 4, 12},     {4, 3, 5, 12},
                  {4, 2, 3, 0},  {4, 4, 5, 0},     {4, 0, 1, 12},    {4, 65533, 65534, 0}, {4, 65534, 65535, 12},
                  {0, 0, 2, 0},  {0, MARK, 0, 0},  {0, 1, 2, 12},    {0, MARK, 3, 0},      {0, MARK, 4, 12}};
    for (unsigned i = 0; i < sizeof worked / sizeof *worked; i++) {
        begin(WRITE_BOOK);
        put_one_of_each();
        set_row(&call, HM_STAGED_SECTION, 0, AC_PLACE + worked[i].stage, worked[i].ac);
        set_row(&call, HM_STAGED_SECTION, 0, RE_PLACE + worked[i].stage, worked[i].re);
        expect_status(worked[i].number == 0 ? 0 : 12 | 1 << 8, "document 01's five stages with other numbers");
    }
}

/* An eighth size, Ac and Re, 1, 2 and 3, could be found by reading on past each seven of them. */
static void eight_stages(void) {
    static const unsigned eight[] = {0, 8, 10, 8, 3, 3, 3, 3, 3, 3, 3, 1, 1, 1, 1, 1, 1, 1, 2, 2, 2, 2, 2, 2, 2};
    static const unsigned next[ROW_NUMBERS] = {3};
    begin(WRITE_BOOK);
    put_row(&call, HM_STAGED_SECTION, eight);
    put_row(&call, HM_STAGED_SECTION, next);
    expect_status(12, "there are no more than seven stages");
}

/* ---- the position of the first bad entry, through lists of 2, 3, 1, 2 and 2 rows */

static const unsigned lists[SECTIONS] = {2, 3, 1, 2, 2};

static void put_lists(void) {
    begin(WRITE_BOOK);
    for (unsigned section = 0; section < SECTIONS; section++)
        put_rows(&call, section, one_of_each[section], lists[section]);
}

/* The first number of a key, a letter or a severity, that no book has. */
static void spoil(unsigned section, size_t row) {
    set_row(&call, section, row, 0, section == HM_REDUCED_SECTION ? LETTER_S : STOPPED);
}

static void spoil_from(unsigned section, size_t row) {
    for (; section < SECTIONS; section++, row = 0)
        for (; row < rows_in(&call, section); row++)
            spoil(section, row);
}

static void positions(void) {
    unsigned position = 0;
    put_lists();
    expect_status(0, "lists of 2, 3, 1, 2 and 2 rows");
    for (unsigned section = 0; section < SECTIONS; section++)
        for (unsigned row = 0; row < lists[section]; row++, position++) {
            put_lists();
            spoil(section, row);
            expect_status(12 | position << 8, "a bad entry, counted from 0 through the lists");
            spoil_from(section, row);
            expect_status(12 | position << 8, "of several bad entries the first is told");
            call.out_len = 0;
            expect_status(12 | position << 8, "a bad entry is told before a short buffer");
        }
    expect(position == 10, "ten entries");
}

/* The last row of each list in turn, by every number of bytes. */
static void cut_rows(void) {
    unsigned position = 0;
    for (unsigned section = 0; section < SECTIONS; section++) {
        position += lists[section];
        for (size_t lost = 1; lost < 2 * row_numbers[section]; lost++) {
            put_lists();
            call.lists[section].len -= lost;
            expect_status(12 | (position - 1) << 8, "a row cut short, at its position");
            spoil_from(section + 1, 0);
            call.out_len = 0;
            expect_status(12 | (position - 1) << 8, "a row cut short, before bad ones and a short buffer");
            spoil(0, 0);
            expect_status(12, "a row cut short, after a bad one");
        }
    }
}

/* ---- books beside the longest: 8 bytes, 8, 32, 16, 10 and 10 for each row, and 2 where there is a fifth list */

static const unsigned four_stages[] = {0, 0, 0, 4, 1, 1, 1, 1, 0, 0, 0, 0, 0, 1, 2, 0, 0, 0, 2, 3, 3, 3, 0, 0, 0};

static const struct {
    unsigned rows[SECTIONS], len;
} long_books[] = {{{3, 1022, 0, 3, 0}, 32766}, {{3, 1023, 0, 0, 0}, 32768}, {{0, 1023, 1, 1, 0}, 32770},
                  {{4, 1100, 1, 2, 0}, 35276}, {{0, 1023, 0, 0, 1}, 32756}, {{0, 1023, 0, 1, 1}, 32766},
                  {{0, 1022, 0, 1, 3}, 32754}, {{0, 1022, 1, 1, 3}, 32770}, {{2, 1022, 0, 0, 3}, 32760},
                  {{3, 1022, 0, 0, 3}, 32768}, {{3, 1022, 0, 3, 1}, 32778}};

static void put_long_book(unsigned book) {
    begin(WRITE_BOOK);
    for (unsigned section = 0; section < SECTIONS; section++)
        put_rows(&call, section, section == HM_STAGED_SECTION ? four_stages : one_of_each[section],
                 long_books[book].rows[section]);
}

/* Bad entries after what is too long, and in it. */
static void spoil_long_book(unsigned book) {
    const unsigned *rows = long_books[book].rows;
    if (rows[4] > 0) {
        spoil(SIGMA_SECTION, rows[4] - 1);
        expect_status(12 | (rows[0] + rows[1] + rows[2] + rows[3] + rows[4] - 1) << 8, "a bad entry before any length");
    }
    if (rows[3] > 0) {
        spoil(HM_VARIABLES_SECTION, rows[3] - 1);
        expect_status(12 | (rows[0] + rows[1] + rows[2] + rows[3] - 1) << 8, "a bad entry is told before any length");
    }
    spoil(HM_STAGED_SECTION, 1021);
    expect_status(12 | (rows[0] + 1021) << 8, "a bad entry is told before any length");
}

static void beside_the_longest(void) {
    for (unsigned i = 0; i < sizeof long_books / sizeof *long_books; i++) {
        unsigned len = long_books[i].len, number = len > LONGEST_BOOK ? 11 : 0;
        put_long_book(i);
        expect_status(number, "a book of up to 32,768 bytes is written, and no longer one");
        call.out_len = len;
        expect_status(number, "a buffer as long as a long book");
        expect(number != 0 || answer.written == len, "how many bytes a long book has");
        call.out_len--;
        expect_status(11, "a buffer that is shorter than a long book");
        spoil_long_book(i);
    }
}

/* ---- every key of a section, and one row more, for which there is no key left; then every key of all sections */

static void all_keys(void) {
    static const unsigned two_stages[ROW_NUMBERS] = {0, 0, 0, 2, 5, 5, [AC_PLACE] = 0, 1, [RE_PLACE] = 2, 2};
    static const unsigned keys[SECTIONS] = {416, 1248, 768, 768, 768}, bytes[SECTIONS] = {8, 20, 16, 10, 10};
    for (unsigned section = 0; section < SECTIONS; section++) {
        const unsigned *numbers = section == HM_STAGED_SECTION ? two_stages : one_of_each[section];
        begin(WRITE_BOOK);
        put_rows(&call, section, numbers, keys[section]);
        expect_status(0, "every key of a section, in order");
        expect(answer.written == (section == SIGMA_SECTION ? 10 : 8) + keys[section] * bytes[section],
               "how many bytes they have");
        put_row(&call, section, numbers);
        expect_status(12 | keys[section] << 8, "after the last key none rises");
    }
}

/* 10 bytes, 416 entries of 8, 1,248 of seven stages, of 50 each, 768 of 16 and twice 768 of 10: 93,386 in all. */
static void most_entries(void) {
    static const unsigned seven[] = {0, 0, 0, 7, 1, 1, 1, 1, 1, 1, 1, 0, 0, 0, 0, 0, 0, 0, 1, 1, 1, 1, 1, 1, 1};
    begin(WRITE_BOOK);
    put_rows(&call, HM_REDUCED_SECTION, single, 416);
    put_rows(&call, HM_STAGED_SECTION, seven, 1248);
    put_rows(&call, HM_SEQUENTIAL_SECTION, insulators, 768);
    put_rows(&call, HM_VARIABLES_SECTION, gauged, 768);
    put_rows(&call, SIGMA_SECTION, known, 768);
    expect_status(11, "a book with all keys is too long");
    spoil(SIGMA_SECTION, 767);
    expect_status(12 | 3967 << 8, "the position of the last of all keys");
    spoil(HM_VARIABLES_SECTION, 767);
    expect_status(12 | 3199 << 8, "the position of the last variables key");
}

void writing_cases(void) {
    draw_fixed();
    memset(&call, 0, sizeof call);
    written_out();
    four_sections_written();
    fifth_section_written();
    nothing_written();
    counted();
    read_out();
    used();
    last_number();
    stage_numbers();
    eight_stages();
    positions();
    cut_rows();
    beside_the_longest();
    all_keys();
    most_entries();
}
