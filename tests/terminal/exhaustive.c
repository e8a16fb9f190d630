/* What is small enough to try whole: tables, rows of stages, records in range, and books at the longest length. */
#include "book.h"
#include "cases.h"
#include "draw.h"

#include <string.h>

enum { LONGEST = 32768 };

static struct call call;
static struct answer answer;

static void expect_status(uint64_t status, const char *what) {
    if (run_both(&call, &answer) != status)
        report(what, &call);
}

/* The ends of the bands of Table 1, and no lots before the first. */
static const uint32_t ends[] = {1,   8,    15,   25,    50,    90,     150,    280,
                                500, 1200, 3200, 10000, 35000, 150000, 500000, UINT32_MAX};
enum { BANDS = sizeof ends / sizeof *ends };

static void every_letter(void) {
    memset(&call, 0, sizeof call);
    call.function = LETTER;
    for (unsigned band = 0; band < BANDS; band++)
        for (unsigned beside = 0; beside < 3; beside++)
            for (call.level = 0; call.level <= 8; call.level++) {
                call.size = ends[band] + beside - 1;
                run_both(&call, &answer);
            }
}

static void every_plan(void) {
    memset(&call, 0, sizeof call);
    call.function = PLAN;
    call.book_len = 8;
    for (unsigned band = 1; band < BANDS; band++)
        for (unsigned end = 0; end < 2; end++)
            for (call.level = 0; call.level < 7; call.level++)
                for (call.column = 0; call.column < 26; call.column++)
                    for (call.severity = 0; call.severity < 2; call.severity++) {
                        call.size = end == 1 ? ends[band] : ends[band - 1] + 1;
                        run_both(&call, &answer);
                    }
}

/* A book with one entry, under normal, letter J and AQL 1.0: its numbers, in the section counted from 0. */
static void put_plan(unsigned section, const unsigned *numbers, unsigned n) {
    unsigned entry[3 + 1 + 3 * STAGES] = {0, 8, 10};
    memcpy(entry + 3, numbers, n * sizeof *numbers);
    set_entry(&call, section, entry, 3 + n);
}

/* The two bytes of each number differ. */
static void put_stages(unsigned stages) {
    unsigned numbers[1 + 3 * STAGES] = {stages};
    for (unsigned i = 0; i < stages; i++) {
        numbers[1 + i] = 0x101 + i;
        numbers[1 + stages + 2 * i] = i == 0 ? 65535 : 0x203 + i;
        numbers[1 + stages + 2 * i + 1] = 0x203 + stages;
    }
    put_plan(1, numbers, 1 + 3 * stages);
}

/* Every number of stages, by a row of every length up to one that is longer than it need be. */
static void every_row(void) {
    memset(&call, 0, sizeof call);
    call.function = STAGED_PLAN;
    call.size = 10000, call.level = 4, call.column = 10;
    for (unsigned stages = 2; stages <= 7; stages++) {
        put_stages(stages);
        for (call.out_len = 0; call.out_len <= ROW + 8; call.out_len++)
            expect_status(call.out_len < ROW ? 11 : 0, "a row of 42 bytes is enough, and no shorter one");
    }
}

/* Two stages of 515 items in all. */
static void rows_refused(void) {
    memset(&call, 0, sizeof call);
    call.function = STAGED_PLAN;
    call.size = 515, call.level = 5, call.column = 11;
    put_stages(2);
    expect_status(6, "no plan is told before a row that is too short");
    call.column = 10;
    expect_status(11, "a plan for the whole lot has a row");
    call.size = 514;
    expect_status(6, "a plan for more than the lot is told before a row that is too short");
}

/* Plans of the book with numbers at the ends of their ranges and with two bytes that differ. */
static void every_number(void) {
    static const unsigned lines[][5] = {{1, 1, 1, 1, 0},
                                        {65535, 65534, 60000, 3150, 1900},
                                        {0x1234, 0x2345, 0x3456, 0x0456, 150},
                                        {256, 512, 49408, 2561, 1265}};
    static const unsigned gauges[][2] = {{2, 1}, {50, 4000}, {3, 256}, {49, 0x0e0f}};
    memset(&call, 0, sizeof call);
    call.size = 10000, call.level = 4, call.column = 10;
    for (unsigned i = 0; i < 4; i++) {
        call.function = SEQUENTIAL_PLAN;
        put_plan(2, lines[i], 5);
        expect_status(0, "a sequential plan is told");
        if (answer.letter != 8 || answer.ha != lines[i][0] || answer.hr != lines[i][1] || answer.g != lines[i][2] ||
            answer.nt != lines[i][3] || answer.at != lines[i][4])
            report("its numbers are those of the book", &call);
        call.function = VARIABLES_PLAN;
        put_plan(3, gauges[i], 2);
        expect_status(0, "a variables plan is told");
        if (answer.letter != 8 || answer.n != gauges[i][0] || answer.k != gauges[i][1])
            report("its numbers are those of the book", &call);
    }
}

static void every_event(void) {
    for (unsigned orders = 0; orders < 4; orders++)
        for (call.event = 0; call.event <= 12; call.event++) {
            call.record[5] = (uint8_t)(orders & 1);
            call.record[6] = (uint8_t)(orders >> 1);
            run_both(&call, &answer);
        }
}

/* Figures up to one past their ranges, whatever the severity uses. */
static void every_record(void) {
    static const uint8_t windows[] = {0, 1, 2, 4, 8, 16, 3, 5, 17, 31, 32, 64};
    memset(&call, 0, sizeof call);
    call.function = NEXT;
    call.record_len = RECORD;
    for (unsigned severity = 0; severity <= 4; severity++) {
        call.record[0] = (uint8_t)severity;
        for (unsigned score = 0; score <= 31; score++)
            for (unsigned i = 0; i < sizeof windows; i++) {
                call.record[1] = (uint8_t)score;
                call.record[4] = windows[i];
                every_event();
            }
        call.record[1] = call.record[4] = 0;
        for (unsigned run = 0; run <= 5; run++)
            for (unsigned count = 0; count <= 5; count++) {
                call.record[2] = (uint8_t)run;
                call.record[3] = (uint8_t)count;
                every_event();
            }
        call.record[2] = call.record[3] = 0;
    }
}

/* A book of 32,768 bytes: 3 reduced singles of 8 bytes and 1,023 plans of four stages, 32 bytes each. */
static void draw_longest(void) {
    static const unsigned body[] = {4, 1, 1, 1, 1, 0, 2, 0, 3, 1, 3, 2, 3};
    call.book_len = 0;
    put_book(&call, 3);
    for (unsigned i = 0; i < 3; i++) {
        put_book(&call, 4);
        put_book(&call, i);
        put_book(&call, 5);
        put_book(&call, 1);
    }
    put_book(&call, 1023);
    for (unsigned i = 0; i < 1023; i++) {
        put_book(&call, i / 416);
        put_book(&call, i / 26 % 16);
        put_book(&call, i % 26);
        for (unsigned j = 0; j < sizeof body / sizeof *body; j++)
            put_book(&call, body[j]);
    }
    put_book(&call, 0);
    put_book(&call, 0);
}

static void longest_books(void) {
    memset(&call, 0, sizeof call);
    call.function = CHECK_BOOK;
    draw_longest();
    expect_status(0, "a book of 32,768 bytes is read");
    call.function = STAGED;
    call.severity = 1022 / 416, call.level = 5, call.size = 9, call.column = 1022 % 26;
    put_item(&call, 0);
    run_both(&call, &answer);
    call.function = CHECK_BOOK;
    call.book_len++;
    expect_status(12 | LONGEST << 8, "a book of 32,769 bytes is broken at 32,768");
    call.book[0] = 4;
    expect_status(12 | LONGEST << 8, "whatever else is wrong with it");
    call.book_len = BOOK_ROOM;
    expect_status(12 | LONGEST << 8, "however long it is");
    call.book_len = 0;
    expect_status(12, "a book of no bytes is broken at 0");
}

/* Sound but for its length: a variables entry in place of the last number of no entries. */
static void sound_but_long(void) {
    static const unsigned entry[] = {0, 0, 0, 2, 1};
    memset(&call, 0, sizeof call);
    call.function = CHECK_BOOK;
    draw_longest();
    call.book_len -= 2;
    put_book(&call, 1);
    for (unsigned i = 0; i < 5; i++)
        put_book(&call, entry[i]);
    expect_status(12 | LONGEST << 8, "a sound book of 32,778 bytes is too long");
}

void exhaustive_cases(void) {
    draw_fixed();
    every_letter();
    every_plan();
    every_row();
    rows_refused();
    every_number();
    every_record();
    longest_books();
    sound_but_long();
}
