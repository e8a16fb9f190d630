/* The worked cases of T-01: plans at the edges, runs of calls, records out of range, refusals, ISO 2859-1 annex A. */
#include "book.h"
#include "cases.h"
#include "draw.h"
#include "reference.h"
#include "words.h"

#include <string.h>

enum { NORMAL, TIGHTENED, REDUCED, STOPPED };
enum { WHOLE = 0, HALF = 2, THIRD = 3 };
enum { A, B, C, D, E, F, G, H, J, K, L, M, N, P, Q, R, S };

static struct call call;
static struct answer answer;

static void expect(bool holds, const char *what) {
    if (!holds)
        report(what, &call);
}

/* ---- plans: the ends of each fraction, and what stands beside them */

struct plan_case {
    uint32_t size, level, column, severity;
    unsigned letter, n, ac, share;
};

static const struct plan_case plans[] = {
    /* the first and the last letter and column of each fraction */
    {8, 5, 15, NORMAL, A, 2, 0, THIRD},
    {500001, 6, 0, NORMAL, R, 2000, 0, THIRD},
    {15, 5, 15, NORMAL, B, 3, 0, HALF},
    {500001, 6, 1, NORMAL, R, 2000, 0, HALF},
    {15, 5, 15, TIGHTENED, B, 3, 0, THIRD},
    {500001, 6, 1, TIGHTENED, R, 2000, 0, THIRD},
    {25, 5, 15, TIGHTENED, C, 5, 0, HALF},
    {500001, 6, 2, TIGHTENED, R, 2000, 0, HALF},
    /* beside them the plan is the old one */
    {8, 5, 14, NORMAL, A, 2, 0, WHOLE},
    {8, 5, 15, TIGHTENED, A, 2, 0, WHOLE},
    {8, 5, 17, NORMAL, A, 2, 1, WHOLE},
    {15, 5, 16, NORMAL, B, 3, 1, WHOLE},
    {25, 5, 15, NORMAL, C, 5, 1, WHOLE},
    {25, 5, 16, TIGHTENED, C, 5, 1, WHOLE},
    {8, 5, 18, TIGHTENED, A, 2, 1, WHOLE},
    {500001, 5, 0, NORMAL, Q, 1250, 0, WHOLE},
    {500001, 6, 0, TIGHTENED, R, 2000, 0, WHOLE},
    {500001, 6, 2, NORMAL, R, 2000, 1, WHOLE},
    {500001, 6, 3, TIGHTENED, R, 2000, 1, WHOLE},
    /* arrows that are no fractions are still followed */
    {8, 5, 13, NORMAL, B, 3, 0, WHOLE},
    {10, 5, 5, NORMAL, K, 10, 0, WHOLE},
    {500001, 5, 0, TIGHTENED, R, 2000, 0, WHOLE},
    /* the size is cut to the lot; the plan is still that of its letter */
    {2, 6, 14, NORMAL, B, 2, 0, THIRD},
    {3, 6, 14, NORMAL, B, 3, 0, THIRD},
    {2, 6, 15, NORMAL, B, 2, 0, HALF},
    {2, 6, 15, TIGHTENED, B, 2, 0, THIRD},
    {2, 0, 15, NORMAL, A, 2, 0, THIRD},
};

/* The old plan goes the way of an arrow where the box is a fraction. */
static void worked_plans(void) {
    for (unsigned i = 0; i < sizeof plans / sizeof *plans; i++) {
        const struct plan_case *p = &plans[i];
        set_lot(&call, FRACTIONAL_PLAN, p->size, p->level, p->column, p->severity);
        expect(run_both(&call, &answer) == 0, "a plan in the mode of fractions");
        expect(answer.letter == p->letter && answer.n == p->n, "letter and sample size in the mode of fractions");
        expect(answer.ac == p->ac && answer.share == p->share, "Ac and share in the mode of fractions");
        call.function = PLAN;
        expect(run_both(&call, &answer) == 0, "the plan of the old mode");
        expect((answer.letter == p->letter && answer.ac == p->ac) == (p->share == WHOLE),
               "the old plan is another one exactly where the box is a fraction");
    }
}

/* The old plan is still told. */
static void plans_over_column_15(void) {
    static const uint32_t lots[][3] = {
        {8, 16, NORMAL}, {8, 16, TIGHTENED}, {8, 17, TIGHTENED}, {15, 16, TIGHTENED}, {2, 16, NORMAL},
    };
    for (unsigned i = 0; i < sizeof lots / sizeof *lots; i++) {
        set_lot(&call, FRACTIONAL_PLAN, lots[i][0], 5, lots[i][1], lots[i][2]);
        expect(run_both(&call, &answer) == 6, "a fraction over column 15 is no plan");
        call.function = PLAN;
        expect(run_both(&call, &answer) == 0, "the plan of the old mode over column 15");
    }
}

/* Reduced plans come from the book, at every box. */
static void reduced_plans(void) {
    static const unsigned entry[] = {1, G, 10, 13, 1, 0, 0, 0};
    set_lot(&call, FRACTIONAL_PLAN, 200, 5, 10, REDUCED);
    expect(run_both(&call, &answer) == 6, "reduced, with no entry");
    call.book_len = 0;
    for (unsigned i = 0; i < 8; i++)
        put_book(&call, entry[i]);
    expect(run_both(&call, &answer) == 0, "reduced, from the book");
    expect(answer.letter == G && answer.n == 13 && answer.ac == 1 && answer.share == WHOLE, "the plan of the book");
    expect(answer.table_n == 13 && answer.cut == 0, "the size of the book, not cut");
    call.severity = NORMAL;
    expect(run_both(&call, &answer) == 0 && answer.n == 32 && answer.share == HALF, "normal, beside that book");
}

/* ---- runs: after each word + or - for the verdict, or =, and the clean run after it */

struct run_case {
    const char *what;
    uint8_t start[RECORD];
    const char *words;
    uint8_t severity, score;
};

static const struct run_case runs[] = {
    {"1/3: one item passes after two clean lots", {0}, "F0+1 F0+2 F1+0", NORMAL, 6},
    {"1/3: not after one", {0}, "F0+1 F1-0", NORMAL, 0},
    {"1/3: not at first", {0}, "F1-0", NORMAL, 0},
    {"1/2: one item passes after one clean lot", {0}, "G0+1 G1+0", NORMAL, 4},
    {"1/2: and after two", {0}, "G0+1 G0+2 G1+0", NORMAL, 6},
    {"1/2: not at first", {0}, "G1-0", NORMAL, 0},
    {"two items never pass, 1/3", {0}, "F0+1 F0+2 F2-0", NORMAL, 0},
    {"two items never pass, 1/2", {0}, "G0+1 G0+2 G2-0", NORMAL, 0},
    {"more items never pass", {0}, "G0+1 G0+2 G9-0", NORMAL, 0},
    {"the run is held at two", {0}, "F0+1 F0+2 F0+2 F0+2 F1+0", NORMAL, 10},
    {"a sample not clean ends the run, accepted or not", {0}, "F0+1 F0+2 F1+0 F0+1 F0+2 F1+0 F1-0", NORMAL, 0},
    {"1/2: one of two", {0}, "G0+1 G1+0 G0+1 G1+0 G0+1 G1+0 G1-0", NORMAL, 0},
    {"tightened 1/3", {TIGHTENED}, "G0+1 G0+2 G1+0", TIGHTENED, 0},
    {"tightened 1/3: not after one", {TIGHTENED}, "G0+1 G1-0", TIGHTENED, 0},
    {"tightened 1/2", {TIGHTENED}, "H0+1 H1+0 H1-0", TIGHTENED, 0},

    {"another size and level under the letter go on with the run", {0}, "F0+1 f0+2 F1+0", NORMAL, 6},
    {"and pass one item", {0}, "f0+1 F0+2 f1+0", NORMAL, 6},
    {"another letter starts the run again", {0}, "F0+1 F0+2 G0+1 F0+1 F0+2 F1+0", NORMAL, 12},
    {"its run does not count for this one", {0}, "G0+1 G0+2 F1-0", NORMAL, 0},
    {"nor this one's for it", {0}, "F0+1 F0+2 G1-0", NORMAL, 0},
    {"another column starts the run again", {0}, "F0+1 F0+2 F'0+1 F'1+0", NORMAL, 8},
    {"its run does not count either", {0}, "F'0+1 F'0+2 F1-0", NORMAL, 0},
    {"nor for the column before", {0}, "E'0+1 E'0+2 F'1-0", NORMAL, 0},

    {"a whole Ac ends the run: 0", {0}, "F0+1 F0+2 E0+0 F1-0", NORMAL, 0},
    {"a whole Ac ends the run: 1", {0}, "G0+1 G0+2 H0+0 G1-0", NORMAL, 0},
    {"a whole Ac ends the run: 2", {0}, "G0+1 J0+0 G0+1", NORMAL, 7},
    {"a staged lot ends the run", {0}, "F0+1 F0+2 sF0+0 F1-0", NORMAL, 0},
    {"the same box in the old mode ends the run", {0}, "F0+1 F0+2 oF0+0 F1-0", NORMAL, 0},
    {"and in 1/2", {0}, "G0+1 G0+2 oG0+0 G1-0", NORMAL, 0},
    {"and curtailed", {0}, "F0+1 F0+2 cF0+0 F1-0", NORMAL, 0},
    {"and curtailed with one item that passes", {0}, "G0+1 G0+2 cG1+0 G0+1 G1+0", NORMAL, 10},
    {"and a curtailed lot that is lost", {0}, "G0+1 G0+2 cG2-0 G0+1", NORMAL, 2},
    {"and a curtailed lot on another plan", {0}, "G0+1 cJ0+0 G0+1", NORMAL, 7},
    {"and curtailed under tightened", {TIGHTENED}, "G0+1 G0+2 cG0+0 G1-0", TIGHTENED, 0},
    {"byte 0 ends the run", {0}, "F0+1 F0+2 b0=0 F1-0", NORMAL, 0},
    {"byte 1 ends the run", {0}, "F0+1 F0+2 b1=0 F1-0", NORMAL, 0},
    {"byte 2 ends the run", {0}, "F0+1 F0+2 b2=0 F1-0", NORMAL, 0},
    {"byte 3 ends the run", {0}, "F0+1 F0+2 b3=0 F0+1", NORMAL, 2},
    {"byte 1 under tightened", {TIGHTENED}, "G0+1 G0+2 b1=0 G1-0", TIGHTENED, 0},

    {"orders leave the run", {0}, "F0+1 b5=1 b6=1 F0+2 b7=2 b8=2 b5=2 F1+0", NORMAL, 6},
    {"orders under tightened leave the run", {TIGHTENED}, "H0+1 b5=1 b7=1 b6=1 b8=1 H1+0", TIGHTENED, 0},
    {"byte 4 leaves the run", {0}, "F0+1 b4=1 F0+2 b4=2 F1+0", NORMAL, 6},
    {"resubmitted lots leave the run", {0}, "F0+1 rF0+1 F0+2 rF2-2 rG0+2 rE0+2 rF'0+2 F1+0", NORMAL, 6},
    {"in the other modes as well", {0}, "F0+1 roF0+1 rsF0+1 rcF0+1 F0+2 roE1-2 rsG2-2 rcE1-2 rcG2-2 F1+0", NORMAL, 6},
    {"and are judged by the run as it stands", {0}, "rF1-0 F0+1 rF1-1 F0+2 rF1+2 rF1+2 rG1-2 F1+0", NORMAL, 6},
    {"sequential and variables lots are passed over", {0}, "F0+1 qF0+1 qF1-1 F0+2 vF0+2 vF1-2 F1+0", NORMAL, 6},
    {"lots between two limits are passed over", {0}, "F0+1 wF0+1 wF1-1 F0+2 wF0+2 wF1-2 F1+0", NORMAL, 6},
    {"lots with a known spread are passed over", {0}, "F0+1 kF0+1 kF1-1 xF0+1 F0+2 xF1-2 kF0+2 F1+0", NORMAL, 6},

    {"the lot that gives tightened", {NORMAL, 0, 0, 0, 1}, "G0+1 G0+2 G2-0", TIGHTENED, 0},
    {"a byte that gives tightened", {NORMAL, 0, 0, 0, 1}, "G0+1 G0+2 b3=0 G1-0", TIGHTENED, 0},
    {"the clean lot that gives normal", {TIGHTENED, 0, 4, 0, 0, 0, 0, 1, G, 10}, "G0+0 G1-0", NORMAL, 0},
    {"the lot with one item that gives normal", {TIGHTENED, 0, 4, 0, 0, 0, 0, 2, G, 10}, "G1+0", NORMAL, 0},
    {"the lot that gives stopped", {TIGHTENED, 0, 0, 4, 0, 0, 0, 2, H, 10}, "H2-0 b9=0", TIGHTENED, 0},
    {"the clean lot that gives reduced", {NORMAL, 28, 0, 0, 0, 1, 1, 2, F, 10}, "F0+0", REDUCED, 0},
    {"the lot with one item that gives reduced", {NORMAL, 28, 0, 0, 0, 1, 1, 2, F, 10}, "F1+0 F0+0", REDUCED, 0},
    {"the permission that gives reduced", {NORMAL, 30, 0, 0, 0, 1, 0, 2, F, 10}, "b7=0", REDUCED, 0},
    {"the steadiness that gives reduced, then normal", {NORMAL, 30, 0, 0, 0, 0, 1, 1, G, 10}, "b5=0 b6=0", NORMAL, 0},
    {"no lots of the stay before", {NORMAL, 30, 0, 0, 0, 0, 1, 1, G, 10}, "b5=0 b6=0 G1-0", NORMAL, 0},
    {"an order that gives nothing", {NORMAL, 30, 0, 0, 0, 0, 0, 2, F, 10}, "b5=2 F1+0", NORMAL, 30},
    {"reduced has whole numbers", {REDUCED, 0, 0, 0, 0, 1, 1}, "F0+0 G0+0 rG1-0 G0+0", REDUCED, 0},
};

/* The plan of the run is that of the last lot that made it. */
static void hold_plan(uint8_t plan[2]) {
    if (call.function == CLOSE_FRACTIONAL && call.resubmitted == 0) {
        ref_letter(call.size, call.level, &plan[0]);
        plan[1] = (uint8_t)call.column;
    }
    if (call.record[CLEAN] == 0)
        plan[0] = plan[1] = 0;
    expect(memcmp(plan, call.record + CLEAN_LETTER, 2) == 0, "the plan of the clean run");
}

/* What stands after the word: the verdict and the clean run. Functions that take no record leave it. */
static const char *hold_word(const struct run_case *run, const char *after, uint8_t plan[2]) {
    if (run_both(&call, &answer) != 0)
        report(run->what, &call);
    if (*after != '=' && answer.accepted != (*after == '+'))
        report(run->what, &call);
    if (call.function == NEXT || takes_record(call.function))
        memcpy(call.record, answer.record, RECORD);
    if (call.record[CLEAN] != (uint8_t)(after[1] - '0'))
        report(run->what, &call);
    hold_plan(plan);
    return after[2] == ' ' ? after + 3 : after + 2;
}

static void worked_runs(void) {
    for (unsigned i = 0; i < sizeof runs / sizeof *runs; i++) {
        uint8_t plan[2] = {runs[i].start[CLEAN_LETTER], runs[i].start[CLEAN_COLUMN]};
        memset(&call, 0, sizeof call);
        put_words_book(&call);
        memcpy(call.record, runs[i].start, RECORD);
        for (const char *word = runs[i].words; *word != '\0';)
            word = hold_word(&runs[i], put_word(&call, word), plan);
        if (call.record[0] != runs[i].severity || call.record[1] != runs[i].score)
            report(runs[i].what, &call);
    }
}

/* ---- records out of range: 1 in every function that takes one */

struct record_case {
    const char *what;
    uint8_t record[RECORD];
};

static const struct record_case wrong_records[] = {
    {"a clean run of 3", {NORMAL, 0, 0, 0, 0, 0, 0, 3, F, 10}},
    {"a clean run of 255", {TIGHTENED, 0, 0, 0, 0, 0, 0, 255, G, 10}},
    {"a plan before the fractions, normal", {NORMAL, 0, 0, 0, 0, 0, 0, 1, E, 10}},
    {"a plan after the fractions, normal", {NORMAL, 0, 0, 0, 0, 0, 0, 2, H, 10}},
    {"a plan before the fractions, tightened", {TIGHTENED, 0, 0, 0, 0, 0, 0, 2, F, 10}},
    {"a plan after the fractions, tightened", {TIGHTENED, 0, 0, 0, 0, 0, 0, 1, J, 10}},
    {"no plan beside a run of 1", {NORMAL, 0, 0, 0, 0, 0, 0, 1, 0, 0}},
    {"no plan beside a run of 2", {TIGHTENED, 0, 0, 0, 0, 0, 0, 2, 0, 0}},
    {"a run under reduced, on a fraction of normal", {REDUCED, 0, 0, 0, 0, 1, 1, 1, F, 10}},
    {"a run under reduced, on a fraction of both others", {REDUCED, 0, 0, 0, 0, 1, 1, 2, G, 10}},
    {"a run under reduced, on a fraction of tightened", {REDUCED, 0, 0, 0, 0, 1, 1, 2, H, 10}},
    {"a run under reduced, one column further", {REDUCED, 0, 0, 0, 0, 1, 1, 1, H, 11}},
    {"a run while stopped", {STOPPED, 0, 0, 0, 0, 0, 0, 1, H, 10}},
    {"letter 16 under normal", {NORMAL, 0, 0, 0, 0, 0, 0, 1, S, 0}},
    {"letter 16 under tightened, 1/3", {TIGHTENED, 0, 0, 0, 0, 0, 0, 1, S, 0}},
    {"letter 16 under tightened, 1/2", {TIGHTENED, 0, 0, 0, 0, 0, 0, 1, S, 1}},
    {"column 16 at A under normal", {NORMAL, 0, 0, 0, 0, 0, 0, 1, A, 16}},
    {"column 16 at A under tightened", {TIGHTENED, 0, 0, 0, 0, 0, 0, 1, A, 16}},
    {"column 17 at A under tightened", {TIGHTENED, 0, 0, 0, 0, 0, 0, 1, A, 17}},
    {"column 16 at B under tightened", {TIGHTENED, 0, 0, 0, 0, 0, 0, 1, B, 16}},
    {"numbers that come to 15 in a byte", {NORMAL, 0, 0, 0, 0, 0, 0, 1, 246, 25}},
    {"a plan beside a run of 0", {NORMAL, 0, 0, 0, 0, 0, 0, 0, F, 10}},
    {"a letter beside a run of 0", {NORMAL, 0, 0, 0, 0, 0, 0, 0, F, 0}},
    {"a column beside a run of 0", {NORMAL, 0, 0, 0, 0, 0, 0, 0, 0, 10}},
    {"a plan beside a run of 0, reduced", {REDUCED, 0, 0, 0, 0, 1, 1, 0, 0, 15}},
};

static const struct record_case right_records[] = {
    {"normal, 1/3, the first letter", {NORMAL, 0, 0, 0, 0, 0, 0, 1, A, 15}},
    {"normal, 1/3, the last letter", {NORMAL, 0, 0, 0, 0, 0, 0, 2, R, 0}},
    {"normal, 1/2, the first letter", {NORMAL, 0, 0, 0, 0, 0, 0, 2, B, 15}},
    {"normal, 1/2, the last letter", {NORMAL, 0, 0, 0, 0, 0, 0, 1, R, 1}},
    {"tightened, 1/3, the first letter", {TIGHTENED, 0, 0, 0, 0, 0, 0, 1, B, 15}},
    {"tightened, 1/3, the last letter", {TIGHTENED, 0, 0, 0, 0, 0, 0, 2, R, 1}},
    {"tightened, 1/2, the first letter", {TIGHTENED, 0, 0, 0, 0, 0, 0, 2, C, 15}},
    {"tightened, 1/2, the last letter", {TIGHTENED, 0, 0, 0, 0, 0, 0, 1, R, 2}},
};

/* The record lent to every function that takes one. */
static void expect_record(const struct record_case *record, bool in_range) {
    static const char *const words[] = {"F0",  "rG0",  "H0", "oF0", "roG0", "sF0", "cF0",
                                        "cF1", "rcG0", "b0", "b4",  "b5",   "b8"};
    memset(&call, 0, sizeof call);
    put_words_book(&call);
    for (unsigned i = 0; i < sizeof words / sizeof *words; i++) {
        memcpy(call.record, record->record, RECORD);
        put_word(&call, words[i]);
        if ((run_both(&call, &answer) == 1) == in_range)
            report(record->what, &call);
        call.function = FRACTIONAL;
        if (words[i][0] != 'b' && (run_both(&call, &answer) == 1) == in_range)
            report(record->what, &call);
    }
}

static void worked_records(void) {
    for (unsigned i = 0; i < sizeof wrong_records / sizeof *wrong_records; i++)
        expect_record(&wrong_records[i], false);
    for (unsigned i = 0; i < sizeof right_records / sizeof *right_records; i++)
        expect_record(&right_records[i], true);
}

/* Seven bytes from before there were fractions are out of range by their length; three zero bytes bring them up. */
static void old_record(void) {
    static const uint8_t old[TOLD] = {NORMAL, 21, 0, 0, 4, 1, 0};
    memset(&call, 0, sizeof call);
    put_words_book(&call);
    memcpy(call.record, old, TOLD);
    put_word(&call, "F0");
    call.record_len = TOLD;
    expect(run_both(&call, &answer) == 1, "a record of seven bytes");
    call.record_len = RECORD;
    expect(run_both(&call, &answer) == 0 && answer.record[1] == 23 && answer.record[CLEAN] == 1, "brought up to ten");
}

/* ---- refusals: with everything wrong at once, put right one by one in the order in which they are given */

static void put_right(unsigned steps) {
    set_lot(&call, call.function, 1, 7, 26, 4);
    call.book_len = steps > 0 ? 8 : 7;
    call.record_len = RECORD;
    call.record[0] = STOPPED;
    call.record[CLEAN] = steps > 1 ? 0 : 3;
    call.severity = steps > 5 ? NORMAL : steps > 1 ? STOPPED : 4;
    call.size = steps > 2 ? 2 : 1;
    call.level = steps > 3 ? 5 : 7;
    call.column = steps > 6 ? 15 : steps > 4 ? 16 : 26;
    if (steps > 5)
        call.record[0] = NORMAL;
    put_item(&call, 0);
    put_item(&call, steps > 8 ? 0 : 2);
    if (steps <= 7)
        call.sample_len = 3;
}

static void refusals_in_order(void) {
    static const enum function functions[] = {FRACTIONAL_PLAN, FRACTIONAL, CLOSE_FRACTIONAL};
    static const unsigned numbers[] = {12 | 7 << 8, 1, 2, 3, 4, 5, 6, 7, 8, 0};
    for (unsigned f = 0; f < 3; f++)
        for (unsigned steps = 0; steps < 10; steps++) {
            call.function = functions[f];
            put_right(steps);
            bool plan_alone = call.function == FRACTIONAL_PLAN && steps > 6;
            expect(run_both(&call, &answer) == (plan_alone ? 0 : numbers[steps]), "12, then 1 to 8");
        }
}

/* ---- ISO 2859-1, annex A: AQL 1.0, level II, every lot closed in the mode of fractions */

struct annex_lot {
    unsigned lot;
    uint32_t size;
    uint8_t letter;
    unsigned n, ac, share, bad, accepted;
    uint8_t score, severity; /* after the lot; the annex tells no score outside normal */
};

/* Lot 11 is accepted by the acceptance score of 13.2.1.2, which T-01 leaves out; lot 25 is on a reduced fraction. */
static const struct annex_lot to_lot_10[] = {
    {1, 180, G, 32, 0, HALF, 0, 1, 2, NORMAL},     {2, 200, G, 32, 0, HALF, 1, 1, 4, NORMAL},
    {3, 250, G, 32, 0, HALF, 1, 0, 0, NORMAL},     {4, 450, H, 50, 1, WHOLE, 1, 1, 2, NORMAL},
    {5, 300, H, 50, 1, WHOLE, 1, 1, 4, NORMAL},    {6, 80, E, 13, 0, WHOLE, 1, 0, 0, TIGHTENED},
    {7, 800, J, 80, 1, WHOLE, 1, 1, 0, TIGHTENED}, {8, 300, H, 50, 0, HALF, 0, 1, 0, TIGHTENED},
    {9, 100, F, 20, 0, WHOLE, 0, 1, 0, TIGHTENED}, {10, 600, J, 80, 1, WHOLE, 0, 1, 0, TIGHTENED},
};

static const struct annex_lot from_lot_12[] = {
    {12, 250, G, 32, 0, HALF, 0, 1, 2, NORMAL},   {13, 600, J, 80, 2, WHOLE, 1, 1, 5, NORMAL},
    {14, 80, E, 13, 0, WHOLE, 0, 1, 7, NORMAL},   {15, 200, G, 32, 0, HALF, 0, 1, 9, NORMAL},
    {16, 500, H, 50, 1, WHOLE, 0, 1, 11, NORMAL}, {17, 100, F, 20, 0, THIRD, 0, 1, 13, NORMAL},
    {18, 120, F, 20, 0, THIRD, 0, 1, 15, NORMAL}, {19, 85, E, 13, 0, WHOLE, 0, 1, 17, NORMAL},
    {20, 300, H, 50, 1, WHOLE, 1, 1, 19, NORMAL}, {21, 500, H, 50, 1, WHOLE, 0, 1, 21, NORMAL},
    {22, 700, J, 80, 2, WHOLE, 1, 1, 24, NORMAL}, {23, 600, J, 80, 2, WHOLE, 0, 1, 27, NORMAL},
    {24, 550, J, 80, 2, WHOLE, 0, 1, 0, REDUCED},
};

static void close_annex_lot(const struct annex_lot *lot, uint8_t record[RECORD]) {
    set_lot(&call, FRACTIONAL_PLAN, lot->size, 5, 10, record[0]);
    expect(run_both(&call, &answer) == 0 && answer.letter == lot->letter && answer.n == lot->n,
           "ISO 2859-1 annex A in the mode of fractions: letter and sample size");
    expect(answer.ac == lot->ac && answer.share == lot->share, "ISO 2859-1 annex A: given Ac");
    expect(answer.table_n == lot->n && answer.cut == 0, "ISO 2859-1 annex A: no lot is inspected whole");
    call.function = CLOSE_FRACTIONAL;
    call.record_len = RECORD;
    memcpy(call.record, record, RECORD);
    for (unsigned i = 0; i < lot->n; i++)
        put_item(&call, i < lot->bad);
    expect(run_both(&call, &answer) == 0 && answer.accepted == lot->accepted && answer.used == lot->n,
           "ISO 2859-1 annex A in the mode of fractions: acceptability");
    expect(answer.record[0] == lot->severity && answer.record[1] == lot->score,
           "ISO 2859-1 annex A in the mode of fractions: switching score and future action");
    memcpy(record, answer.record, RECORD);
}

/* Both from a fresh record with both orders given, as after lot 11, which restores normal. */
static void iso_2859_annex_a(void) {
    uint8_t first[RECORD] = {NORMAL, 0, 0, 0, 0, 1, 1}, second[RECORD] = {NORMAL, 0, 0, 0, 0, 1, 1};
    for (unsigned i = 0; i < sizeof to_lot_10 / sizeof *to_lot_10; i++)
        close_annex_lot(&to_lot_10[i], first);
    for (unsigned i = 0; i < sizeof from_lot_12 / sizeof *from_lot_12; i++)
        close_annex_lot(&from_lot_12[i], second);
}

/* Lot 24's own switching score of 30 stands where reduced inspection is not permitted. */
static void annex_a_not_permitted(void) {
    struct annex_lot last = from_lot_12[sizeof from_lot_12 / sizeof *from_lot_12 - 1];
    uint8_t record[RECORD] = {NORMAL, 27, 0, 0, 0, 1, 0};
    last.severity = NORMAL;
    last.score = 30;
    close_annex_lot(&last, record);
}

/* Lot 11, on the record that lot 10 leaves: the constant plans of 13.2.1.1 do not accept it. */
static void annex_a_lot_11(void) {
    static const struct annex_lot lot_11 = {11, 200, G, 32, 0, THIRD, 1, 0, 0, TIGHTENED};
    uint8_t record[RECORD] = {TIGHTENED, 0, 4, 0, 0, 1, 1};
    close_annex_lot(&lot_11, record);
    expect(record[2] == 0 && record[3] == 1, "lot 11 is the first not accepted of its stay");
}

void fraction_cases(void) {
    draw_fixed();
    worked_plans();
    plans_over_column_15();
    reduced_plans();
    worked_runs();
    worked_records();
    old_record();
    refusals_in_order();
    iso_2859_annex_a();
    annex_a_not_permitted();
    annex_a_lot_11();
}
