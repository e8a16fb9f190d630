/* What of T-01 is small enough to try whole: plans, verdicts, records with a clean run, and short runs of mixed calls.
 */
#include "book.h"
#include "cases.h"
#include "draw.h"
#include "told.h"
#include "words.h"

#include <string.h>

enum { NORMAL, TIGHTENED, REDUCED, STOPPED, SEVERITIES };
enum { LETTERS = 16, LAST = LETTERS - 1, ITEM_COLUMNS = 16, LEVELS = 7, LEVEL_II = 5, LEVEL_III = 6 };

static struct call call;
static struct answer answer;

static void expect(bool holds, const char *what) {
    if (!holds)
        report(what, &call);
}

static void begin(enum function function) {
    memset(&call, 0, sizeof call);
    call.function = function;
    call.record_len = RECORD;
    call.book_len = 8;
}

/* The ends of the bands of Table 1, and no lots before the first. Level II has a letter for each band, A to Q. */
static const uint32_t ends[] = {1,   8,    15,   25,    50,    90,     150,    280,
                                500, 1200, 3200, 10000, 35000, 150000, 500000, UINT32_MAX};
enum { BANDS = sizeof ends / sizeof *ends };

static void put_lot_of(unsigned letter) {
    call.size = letter < LAST ? ends[letter + 1] : UINT32_MAX;
    call.level = letter < LAST ? LEVEL_II : LEVEL_III;
}

/* The column at which the letter has the share at the severity; over 15 it is none. */
static unsigned column_of(unsigned letter, unsigned share, unsigned severity) {
    return 15 + severity + (share == 2) - letter;
}

/* ---- plans */

/* Where the box is no fraction the plan is the old one; where it is, its letter is that of Table 1. */
static void every_column(void) {
    for (call.column = 0; call.column <= 26; call.column++)
        for (call.severity = 0; call.severity <= SEVERITIES; call.severity++) {
            struct answer plan;
            call.function = FRACTIONAL_PLAN;
            if (run_both(&call, &plan) != 0)
                continue;
            call.function = plan.share == 0 ? PLAN : LETTER;
            run_both(&call, &answer);
            expect(answer.letter == plan.letter, "the letter of a plan in the mode of fractions");
            if (plan.share == 0)
                expect(answer.n == plan.n && answer.ac == plan.ac && answer.table_n == plan.table_n &&
                           answer.cut == plan.cut,
                       "a plan that is no fraction is the old one");
        }
}

static void every_plan(void) {
    begin(FRACTIONAL_PLAN);
    for (unsigned band = 1; band < BANDS; band++)
        for (unsigned end = 0; end < 2; end++)
            for (call.level = 0; call.level < LEVELS; call.level++) {
                call.size = end == 1 ? ends[band] : ends[band - 1] + 1;
                every_column();
            }
}

/* ---- verdicts, and the clean run after them: on the lot's own plan, and beside a run on another letter or column */

static void put_total(unsigned n, unsigned total) {
    call.sample_len = 0;
    for (unsigned i = 0; i < n; i++)
        put_item(&call, i + total >= n);
}

static void set_clean(unsigned run, unsigned letter, unsigned column) {
    call.record[CLEAN] = (uint8_t)run;
    call.record[CLEAN_LETTER] = (uint8_t)(run > 0 ? letter : 0);
    call.record[CLEAN_COLUMN] = (uint8_t)(run > 0 ? column : 0);
}

/* Judged, resubmitted and closed: only the last moves the record. The verdict is held by run_both. */
static void every_way(unsigned letter, unsigned total, unsigned before) {
    call.function = FRACTIONAL;
    expect(run_both(&call, &answer) == 0 && memcmp(answer.record, call.record, RECORD) == 0, "judging moves nothing");
    call.function = CLOSE_FRACTIONAL;
    call.resubmitted = 1;
    expect(run_both(&call, &answer) == 0 && memcmp(answer.record, call.record, RECORD) == 0, "nor does a resubmitted");
    call.resubmitted = 0;
    expect(run_both(&call, &answer) == 0, "a lot is closed on a fraction");
    const uint8_t *after = answer.record + CLEAN;
    if (total > 0)
        expect(after[0] == 0 && after[1] == 0 && after[2] == 0, "a sample not clean ends the run");
    else
        expect(after[0] == (before < 2 ? before + 1 : 2) && after[1] == letter && after[2] == call.column,
               "a clean sample goes on with the run");
}

/* Any other fraction at the severity: one letter further and one column less, and the other share of the letter. */
static void every_run(unsigned letter, unsigned share, unsigned n) {
    unsigned beside = letter < LAST && call.column > 0 ? letter + 1 : letter - 1;
    unsigned other = column_of(letter, 5 - share, call.severity);
    for (unsigned total = 0; total <= 3 && total <= n; total++) {
        put_total(n, total);
        for (unsigned run = 0; run <= 2; run++) {
            set_clean(run, letter, call.column);
            every_way(letter, total, run);
            set_clean(run, beside, letter + call.column - beside);
            every_way(letter, total, 0);
            if (other < ITEM_COLUMNS) {
                set_clean(run, letter, other);
                every_way(letter, total, 0);
            }
        }
    }
}

static void every_verdict(void) {
    static const unsigned sizes[LETTERS] = {2, 3, 5, 8, 13, 20, 32, 50, 80, 125, 200, 315, 500, 800, 1250, 2000};
    begin(FRACTIONAL);
    for (call.severity = NORMAL; call.severity <= TIGHTENED; call.severity++)
        for (unsigned letter = 0; letter < LETTERS; letter++)
            for (unsigned share = 2; share <= 3; share++) {
                call.record[0] = (uint8_t)call.severity;
                call.column = column_of(letter, share, call.severity);
                put_lot_of(letter);
                if (call.column < ITEM_COLUMNS)
                    every_run(letter, share, sizes[letter]);
            }
}

/* Every size and level of a letter are on its plan: the run of one passes an item of another. */
static void every_lot_of_letter(void) {
    begin(FRACTIONAL);
    for (unsigned band = 1; band < BANDS; band++)
        for (unsigned end = 0; end < 2; end++)
            for (call.level = 0; call.level < LEVELS; call.level++)
                for (unsigned i = 0; i < 4; i++) {
                    unsigned severity = i % 2, share = 2 + i / 2;
                    call.size = end == 1 ? ends[band] : ends[band - 1] + 1;
                    call.severity = call.record[0] = (uint8_t)severity;
                    call.function = LETTER;
                    run_both(&call, &answer);
                    call.column = column_of(answer.letter, share, severity);
                    if (call.column >= ITEM_COLUMNS)
                        continue;
                    set_clean(share - 1, answer.letter, call.column);
                    call.function = FRACTIONAL_PLAN;
                    expect(run_both(&call, &answer) == 0 && answer.share == share, "a fraction by its column");
                    put_total(answer.n, 1);
                    call.function = FRACTIONAL;
                    expect(run_both(&call, &answer) == 0 && answer.accepted == 1,
                           "one item passes on its letter's run");
                }
}

/* ---- records with a clean run */

/* How many are in range: on a fraction of normal 31, of tightened 29, for each of the two runs; and four with none. */
static void every_clean_run(void) {
    static const uint8_t bytes[] = {0,  1,  2,  3,  4,  5,  6,  7,  8,  9,  10, 11,  12,  13,
                                    14, 15, 16, 17, 18, 25, 26, 31, 32, 64, 96, 128, 240, 255};
    unsigned in_range = 0;
    begin(NEXT);
    call.event = 5;
    for (unsigned severity = 0; severity <= SEVERITIES; severity++)
        for (unsigned run = 0; run < 5; run++)
            for (unsigned i = 0; i < sizeof bytes; i++)
                for (unsigned j = 0; j < sizeof bytes; j++) {
                    call.record[0] = (uint8_t)severity;
                    call.record[CLEAN] = (uint8_t)(run < 4 ? run : 255);
                    call.record[CLEAN_LETTER] = bytes[i];
                    call.record[CLEAN_COLUMN] = bytes[j];
                    in_range += run_both(&call, &answer) == 0;
                }
    expect(in_range == 2 * (31 + 29) + 4, "how many clean runs are in range");
}

/* A typed lot or a change of severity clears the run; nothing else that hm_next takes does. */
static void every_event(void) {
    static const uint8_t none[RECORD - TOLD] = {0};
    for (unsigned orders = 0; orders < 4; orders++)
        for (call.event = 0; call.event <= 10; call.event++) {
            call.record[5] = (uint8_t)(orders & 1);
            call.record[6] = (uint8_t)(orders >> 1);
            uint64_t status = run_both(&call, &answer);
            bool cleared = status == 0 && (call.event < 4 || answer.record[0] != call.record[0]);
            expect(memcmp(answer.record + TOLD, cleared ? none : call.record + TOLD, RECORD - TOLD) == 0,
                   "what an event does to the clean run");
        }
}

/* Records in the middle of a stay and one from a change of severity: score and window, or run and count. */
static void every_stay(unsigned severity) {
    static const uint8_t normal[][2] = {{0, 0}, {5, 2}, {27, 0}, {28, 16}, {30, 1}};
    static const uint8_t tightened[][2] = {{0, 0}, {2, 1}, {4, 0}, {0, 4}, {4, 4}};
    for (unsigned i = 0; i < 5; i++) {
        memset(call.record, 0, CLEAN);
        call.record[0] = (uint8_t)severity;
        call.record[severity == NORMAL ? 1 : 2] = severity == NORMAL ? normal[i][0] : tightened[i][0];
        call.record[severity == NORMAL ? 4 : 3] = severity == NORMAL ? normal[i][1] : tightened[i][1];
        every_event();
    }
}

static void every_event_on_a_run(void) {
    begin(NEXT);
    for (unsigned severity = NORMAL; severity <= TIGHTENED; severity++)
        for (unsigned letter = 0; letter < LETTERS; letter++)
            for (unsigned share = 2; share <= 3; share++)
                for (unsigned run = 1; run <= 2; run++) {
                    unsigned column = column_of(letter, share, severity);
                    set_clean(run, letter, column);
                    if (column < ITEM_COLUMNS)
                        every_stay(severity);
                }
}

/* Only ten bytes are a record. */
static void every_length(void) {
    static const enum function functions[] = {NEXT,         FRACTIONAL,       CLOSE_SINGLE,
                                              CLOSE_STAGED, CLOSE_FRACTIONAL, CLOSE_CURTAILED};
    begin(NEXT);
    put_words_book(&call);
    put_word(&call, "sF0");
    for (unsigned f = 0; f < sizeof functions / sizeof *functions; f++)
        for (call.record_len = 0; call.record_len <= RECORD_ROOM; call.record_len++) {
            call.function = functions[f];
            call.event = 5;
            uint64_t status = run_both(&call, &answer);
            expect((status == 1) == (call.record_len != RECORD), "a record of ten bytes, and no other length");
        }
}

/* ---- every short run of calls of every kind, after others, held to the written reading of all that was told */

static struct told told;

static void go_on(const char *word) {
    put_word(&call, word);
    if (run_both(&call, &answer) == 0) {
        tell(&told, &call, &answer);
        memcpy(call.record, answer.record, RECORD);
    }
}

static void every_ending(unsigned more) {
    static const char *const words[] = {"F0", "F1",  "f0",  "G0",  "G1", "g1", "F'0", "H0", "H1",
                                        "E0", "oG0", "sG0", "rG1", "b1", "b3", "b4",  "b5", "cG0"};
    uint8_t record[RECORD];
    size_t len = told.len;
    if (more == 0)
        return;
    memcpy(record, call.record, RECORD);
    for (unsigned i = 0; i < sizeof words / sizeof *words; i++) {
        go_on(words[i]);
        every_ending(more - 1);
        told.len = len;
        memcpy(call.record, record, RECORD);
    }
}

/* From a fresh record; then in each stay, from where a lot or an order changes the severity. */
static void every_run_of_calls(void) {
    static const char *const starts[] = {
        "",
        "b3",
        "b3 b3",
        "b3 b3 G0 G0 b1 b1",
        "b3 b3 H0 H0 H0 H0",
        "b3 b3 b3 b3 b3 b3 H0",
        "b3 b3 b3 b3 b3 b3 b3 b9 G0 G0",
        "b7 b0 b0 b0 b0 b0 b0 b0 b0 b0 F0",
        "b5 b7 b0 b0 b0 b0 b0 b0 b0 b0 G0",
        "b5 b7 b0 b0 b0 b0 b0 b0 b0 b0 F0 F0",
    };
    for (unsigned i = 0; i < sizeof starts / sizeof *starts; i++) {
        begin(NEXT);
        put_words_book(&call);
        told.len = 0;
        for (const char *word = starts[i]; *word != '\0'; word += strcspn(word, " "), word += *word == ' ')
            go_on(word);
        every_ending(i == 0 ? 4 : 3);
    }
}

void every_fraction(void) {
    draw_fixed();
    every_plan();
    every_verdict();
    every_lot_of_letter();
    every_clean_run();
    every_event_on_a_run();
    every_length();
    every_run_of_calls();
}
