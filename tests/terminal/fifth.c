/* T-07's fifth section of a book: where it is there and where it is not, and the byte of a book that it breaks. */
#include "../../include/hipomoake.h"
#include "book.h"
#include "cases.h"
#include "draw.h"
#include "sides.h"

#include <string.h>

enum { NORMAL, REDUCED = 2, LEVEL_II = 5, LETTER_J = 8, AQL_1_0 = 10, LONGEST = 32768 };

static struct call call;
static struct answer answer;

static void expect(bool holds, const char *what) {
    if (!holds)
        report(what, &call);
}

static void expect_status(uint64_t status, const char *what) {
    expect(run_both(&call, &answer) == status, what);
}

static void expect_broken_at(size_t place, const char *what) {
    expect_status(12 | (uint64_t)place << 8, what);
}

static void put_numbers(const unsigned *numbers, unsigned n) {
    for (unsigned i = 0; i < n; i++)
        put_book(&call, numbers[i]);
}

/* ---- two books of four sections: one with no entries, and one with a plan of each kind for letter J at AQL 1.0 */

enum { EMPTY, FILLED, BOOKS };

static const unsigned filled[] = {1, 8, 10, 2,  0,                           /* reduced */
                                  1, 0, 8,  10, 2,   1,   1,     0, 2, 1, 2, /* staged */
                                  1, 0, 8,  10, 500, 500, 50000, 4, 2,       /* sequential */
                                  1, 0, 8,  10, 2,   1000};                  /* variables */

/* Sets the book, and gives its length: where a fifth count would stand. */
static size_t put_four(unsigned kind) {
    static const unsigned empty[COUNTED_SECTIONS] = {0};
    call.function = CHECK_BOOK;
    call.book_len = 0;
    put_numbers(kind == EMPTY ? empty : filled, kind == EMPTY ? COUNTED_SECTIONS : sizeof filled / sizeof *filled);
    return call.book_len;
}

/* ---- worked: what stands after the fourth section, and the byte that is reported, counted from its end */

enum { SOUND = -1, AT_LENGTH = -2, MOST_NUMBERS = 13 };

struct worked {
    const char *what;
    unsigned numbers[MOST_NUMBERS], count, bytes; /* and so many bytes of 0 */
    int place;
};

static const struct worked worked[] = {
    {"nothing: four sections are a book", {0}, 0, 0, SOUND},
    {"a lone byte is half a count", {0}, 0, 1, AT_LENGTH},
    {"a count of 0", {0}, 1, 0, 0},
    {"a count of 0 and a byte", {0}, 1, 1, 0},
    {"a count of 0 and another", {0, 0}, 2, 0, 0},
    {"a count of 0 and a sound entry", {0, 0, 8, 10, 2, 1000}, 6, 0, 0},
    {"a count of 0 and a section", {0, 1, 0, 8, 10, 2, 1000}, 7, 0, 0},
    {"a count of 0 and numbers out of range", {0, 65535, 65535}, 3, 0, 0},
    {"a count alone", {1}, 1, 0, AT_LENGTH},
    {"a count whose low byte is 0", {256}, 1, 0, AT_LENGTH},
    {"a count whose low byte is 0, and an entry", {256, 0, 8, 10, 2, 1000}, 6, 0, AT_LENGTH},
    {"the largest count", {65535, 0, 8, 10, 2, 1000}, 6, 0, AT_LENGTH},
    {"an entry", {1, 0, 8, 10, 2, 1000}, 6, 0, SOUND},
    {"an entry at the lower ends", {1, 0, 0, 0, 2, 1}, 6, 0, SOUND},
    {"an entry at the upper ends", {1, 2, 15, 15, 50, 4000}, 6, 0, SOUND},
    {"an entry that lacks its last number", {1, 0, 8, 10, 2}, 5, 0, AT_LENGTH},
    {"an entry that lacks half of it", {1, 0, 8, 10, 2}, 5, 1, AT_LENGTH},
    {"an entry less than counted", {2, 0, 8, 10, 2, 1000}, 6, 0, AT_LENGTH},
    {"two entries", {2, 0, 8, 10, 2, 1000, 0, 8, 11, 2, 1000}, 11, 0, SOUND},
    {"two entries, the second cut", {2, 0, 8, 10, 2, 1000, 0, 8, 11, 2}, 10, 1, AT_LENGTH},
    {"a byte after the fifth section", {1, 0, 8, 10, 2, 1000}, 6, 1, 12},
    {"two bytes after the fifth section", {1, 0, 8, 10, 2, 1000}, 6, 2, 12},
    {"a sixth count", {1, 0, 8, 10, 2, 1000, 1}, 7, 0, 12},
    {"a sixth section", {1, 0, 8, 10, 2, 1000, 1, 0, 8, 11, 2, 1000}, 12, 0, 12},
    {"an entry more than counted", {1, 0, 8, 10, 2, 1000, 0, 8, 11, 2, 1000}, 11, 0, 12},
    {"a byte after two entries", {2, 0, 8, 10, 2, 1000, 0, 8, 11, 2, 1000}, 11, 1, 22},
    {"a severity of 3", {1, 3, 8, 10, 2, 1000}, 6, 0, 2},
    {"a letter of 16", {1, 0, 16, 10, 2, 1000}, 6, 0, 4},
    {"a column of 16", {1, 0, 8, 16, 2, 1000}, 6, 0, 6},
    {"an n of 1", {1, 0, 8, 10, 1, 1000}, 6, 0, 8},
    {"an n of 51", {1, 0, 8, 10, 51, 1000}, 6, 0, 8},
    {"a K of 0", {1, 0, 8, 10, 2, 0}, 6, 0, 10},
    {"a K of 4,001", {1, 0, 8, 10, 2, 4001}, 6, 0, 10},
    {"the first number of several", {1, 0, 8, 16, 1, 0}, 6, 3, 6},
    {"a number before what is missing", {2, 0, 8, 10, 2, 4001}, 6, 0, 10},
    {"the same key again", {2, 0, 8, 10, 2, 1000, 0, 8, 10, 2, 1000}, 11, 0, 12},
    {"a key that falls in its column", {2, 0, 8, 10, 2, 1000, 0, 8, 9, 2, 1000}, 11, 0, 12},
    {"a key that falls in its letter", {2, 0, 8, 10, 2, 1000, 0, 7, 11, 2, 1000}, 11, 0, 12},
    {"a key that falls in its severity", {2, 1, 8, 10, 2, 1000, 0, 9, 11, 2, 1000}, 11, 0, 12},
    {"a key that rises in its severity alone", {2, 0, 8, 10, 2, 1000, 1, 0, 0, 2, 1000}, 11, 0, SOUND},
    {"the key of the second, then a byte too many", {2, 0, 8, 10, 2, 1000, 0, 8, 10, 2, 1000}, 11, 1, 12},
};

static void worked_books(void) {
    for (unsigned kind = 0; kind < BOOKS; kind++)
        for (unsigned i = 0; i < sizeof worked / sizeof *worked; i++) {
            const struct worked *w = &worked[i];
            size_t end = put_four(kind);
            put_numbers(w->numbers, w->count);
            for (unsigned j = 0; j < w->bytes; j++)
                call.book[call.book_len++] = 0;
            size_t place = w->place == AT_LENGTH ? call.book_len : end + (size_t)w->place;
            expect_status(w->place == SOUND ? 0 : 12 | (uint64_t)place << 8, w->what);
        }
}

/* ---- every beginning of a book of five sections: sound where it ends with the fourth, or with the fifth */

static const unsigned three_entries[] = {3, 0, 8, 10, 2, 1000, 0, 8, 11, 50, 4000, 2, 15, 15, 3, 1};

static void every_beginning(void) {
    for (unsigned kind = 0; kind < BOOKS; kind++) {
        size_t end = put_four(kind);
        put_numbers(three_entries, sizeof three_entries / sizeof *three_entries);
        size_t whole = call.book_len;
        for (call.book_len = 0; call.book_len <= whole; call.book_len++) {
            bool sound = call.book_len == end || call.book_len == whole;
            expect_status(sound ? 0 : 12 | (uint64_t)call.book_len << 8, "a beginning of a book is at its length");
        }
    }
}

/* ---- every lone byte; a count of 0 before up to 40 bytes, those of a sound section too; bytes after the fifth */

static void every_lone_byte(void) {
    for (unsigned kind = 0; kind < BOOKS; kind++)
        for (unsigned byte = 0; byte < 256; byte++) {
            size_t end = put_four(kind);
            call.book[call.book_len++] = (uint8_t)byte;
            expect_broken_at(end + 1, "a lone byte after the fourth section is half a count");
        }
}

static void put_tail(const uint8_t *tail, size_t bytes) {
    memcpy(call.book + call.book_len, tail, bytes);
    call.book_len += bytes;
}

static void every_tail(void) {
    static const uint8_t zeros[40] = {0}, ones[] = {1, 0, 0, 0, 8, 0, 10, 0, 2, 0, 1,  0, 1, 0, 0, 0, 8, 0, 11, 0,
                                                    2, 0, 1, 0, 1, 0, 0,  0, 8, 0, 12, 0, 2, 0, 1, 0, 1, 0, 0,  0};
    static const uint8_t *const tails[] = {zeros, ones};
    for (unsigned kind = 0; kind < BOOKS; kind++)
        for (unsigned i = 0; i < 2; i++)
            for (size_t bytes = 0; bytes <= 40; bytes++) {
                size_t end = put_four(kind);
                put_book(&call, 0);
                put_tail(tails[i], bytes);
                expect_broken_at(end, "a fifth count of 0, whatever follows it");
                call.book_len = end;
                put_numbers(three_entries, sizeof three_entries / sizeof *three_entries);
                size_t whole = call.book_len;
                put_tail(tails[i], bytes);
                expect_status(bytes == 0 ? 0 : 12 | (uint64_t)whole << 8, "the first byte after the fifth section");
            }
}

/* ---- every number of a fifth entry, at the ends of all ranges and with a byte that is in range */

static void every_number(void) {
    static const unsigned values[] = {0,   1,   2,    3,    4,    7,    15,   16,   17,    25,    26,    49,
                                      50,  51,  255,  256,  257,  258,  271,  306,  3999,  4000,  4001,  4002,
                                      512, 513, 1000, 2000, 3150, 8192, 4096, 4097, 32770, 60000, 65534, 65535};
    static const unsigned ranges[5][2] = {{0, 2}, {0, 15}, {0, 15}, {2, 50}, {1, 4000}};
    for (unsigned place = 0; place < 5; place++)
        for (unsigned i = 0; i < sizeof values / sizeof *values; i++) {
            unsigned entry[] = {1, 0, 8, 10, 2, 1000};
            bool sound = values[i] >= ranges[place][0] && values[i] <= ranges[place][1];
            size_t end = put_four(FILLED);
            entry[1 + place] = values[i];
            put_numbers(entry, 6);
            expect_status(sound ? 0 : 12 | (uint64_t)(end + 2 + 2 * place) << 8, "a number of a fifth entry");
        }
}

/* ---- every function that takes a book: with a fifth section, without one, and with one that is broken */

static void put_call(enum function function) {
    call.function = function;
    call.size = 1000, call.level = LEVEL_II, call.column = call.lower_column = AQL_1_0;
    call.severity = call.record[0] = function == PLAN || function == SINGLE ? REDUCED : NORMAL;
    call.record_len = RECORD;
    call.limit = function == LOWER || function == SIGMA_LOWER ? -1 : 1;
    call.lower_limit = -1;
    call.sigma = 1;
    call.out_len = ROW;
    call.section = SIGMA_SECTION;
}

static bool takes_book(enum function f) {
    return f != LETTER && f != NEXT && f != LIST && f != WRITE_BOOK && f != SCREEN;
}

static bool gives_verdict(enum function f) {
    return f >= SINGLE && f <= CLOSE_CURTAILED;
}

/* Two readings, or items, of 0, one for the sequential plan and the first stage; 80 for the tables. */
static void put_sample_for(enum function f) {
    unsigned n = f == STAGED || f == CLOSE_STAGED || f == SEQUENTIAL ? 1 : judges_readings(f) || f == SINGLE ? 2 : 80;
    call.sample_len = 0;
    for (unsigned i = 0; i < n; i++)
        put_item(&call, 0);
}

static void every_function(void) {
    static const unsigned entry[] = {1, 0, 8, 10, 2, 1000};
    struct answer without;
    for (int f = 0; f < FUNCTIONS; f++) {
        if (!takes_book((enum function)f))
            continue;
        size_t end = put_four(FILLED);
        put_call((enum function)f);
        put_sample_for((enum function)f);
        bool asks_fifth = is_sigma(call.function) || f == READ_ENTRY;
        uint64_t status = run_both(&call, &without);
        expect(status == (asks_fifth ? 6 : 0), "a book of four sections has every plan but a sigma plan");
        put_numbers(entry, 6);
        expect_status(0, "a book of five sections has every plan");
        if (gives_verdict(call.function) && !asks_fifth)
            expect(answer.accepted == without.accepted && answer.used == without.used, "sigma plans move no verdict");
        call.book_len++;
        expect_broken_at(end + 12, "a byte after the fifth section breaks the book");
        call.book[end] = 0;
        expect_broken_at(end, "and so does a fifth count of 0");
        call.book_len = end + 1;
        expect_broken_at(end + 1, "and so does a lone byte");
    }
}

/* ---- books beside the longest, whose last section is the fifth: 1,022 staged plans of 32 bytes, and 3 reduced ones */

static void put_long(unsigned reduced, unsigned sigma) {
    static const unsigned body[] = {4, 1, 1, 1, 1, 0, 2, 0, 3, 1, 3, 2, 3}, gauge[] = {2, 1};
    call.function = CHECK_BOOK;
    call.book_len = 0;
    put_book(&call, reduced);
    for (unsigned i = 0; i < reduced; i++) {
        const unsigned entry[] = {4, i, 5, 1};
        put_numbers(entry, 4);
    }
    put_book(&call, 1022);
    for (unsigned i = 0; i < 1022; i++) {
        const unsigned key[] = {i / 416, i / 26 % 16, i % 26};
        put_numbers(key, 3);
        put_numbers(body, sizeof body / sizeof *body);
    }
    put_book(&call, 0);
    put_book(&call, 0);
    put_book(&call, sigma);
    for (unsigned i = 0; i < sigma; i++) {
        const unsigned key[] = {NORMAL, LETTER_J, i};
        put_numbers(key, 3);
        put_numbers(gauge, 2);
    }
}

/* 8 + 24 + 32,704 + 2 + 30 is the longest. */
static void beside_the_longest(void) {
    put_long(3, 3);
    expect(call.book_len == LONGEST, "the book that was made has 32,768 bytes");
    expect_status(0, "a book of five sections and 32,768 bytes");
    call.function = COUNT_ENTRIES;
    call.section = SIGMA_SECTION;
    expect_status(0, "its sigma plans are counted");
    expect(answer.count == 3, "three sigma plans");
    call.function = CHECK_BOOK;
    call.book_len--;
    expect_broken_at(LONGEST - 1, "a book that lacks its last byte");
    call.book_len = LONGEST + 1;
    expect_broken_at(LONGEST, "one byte after a fifth section that ends at 32,768");
    put_long(3, 4);
    expect_broken_at(LONGEST, "a sound book of 32,778 bytes is too long");
    put_long(0, 5);
    expect_status(0, "a sound book of 32,764 bytes");
    put_long(0, 6);
    expect_broken_at(LONGEST, "a sound book of 32,774 bytes is too long");
}

/* ---- every key of the fifth section: its plan is found, shown and counted there */

static void every_key(void) {
    call.book_len = 0;
    for (unsigned i = 0; i < COUNTED_SECTIONS; i++)
        put_book(&call, 0);
    put_book(&call, 3 * 16 * 16);
    for (unsigned key = 0; key < 3 * 16 * 16; key++) {
        const unsigned entry[] = {key / 256, key / 16 % 16, key % 16, 2 + key % 49, 1 + key};
        put_numbers(entry, 5);
    }
    call.function = READ_ENTRY;
    call.section = SIGMA_SECTION;
    call.out_len = 10;
    for (call.nth = 0; call.nth < 3 * 16 * 16; call.nth += 7) {
        expect_status(0, "an entry of the fifth section");
        for (unsigned i = 0; i < 5; i++)
            expect(HM_NUMBER_AT(last_out(), i) == HM_NUMBER_AT(call.book, 5 + 5 * call.nth + i), "its row");
        expect(answer.numbers == 5, "its row has five numbers");
    }
    call.nth = 3 * 16 * 16;
    expect_status(6, "there is no entry past the last");
    call.function = COUNT_ENTRIES;
    expect_status(0, "the entries of the fifth section");
    expect(answer.count == 768, "all keys of the fifth section");
}

void fifth_section_cases(void) {
    draw_fixed();
    memset(&call, 0, sizeof call);
    worked_books();
    every_beginning();
    every_lone_byte();
    every_tail();
    every_number();
    every_function();
    beside_the_longest();
    every_key();
}
