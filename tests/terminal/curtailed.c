/* The worked cases of T-04: where a curtailed sample ends, the record after it, where there is no plan, refusals. */
#include "book.h"
#include "cases.h"
#include "draw.h"

#include <stdlib.h>
#include <string.h>

enum { NORMAL, TIGHTENED, REDUCED, STOPPED };
enum { ADD_3, ADD_2, SCORE_0, LOST, RESUBMITTED, CORRECTIVE = 9 };
enum { LEVEL_II = 5, LEVEL_III = 6, LETTER_F = 5, LETTER_G = 6, LETTER_H = 7, LETTER_J = 8 };

static struct call call;
static struct answer answer;

static void expect(bool holds, const char *what) {
    if (!holds)
        report(what, &call);
}

/* A sample as numbers a space apart, each with x and how many of it there are, or one; h is half of a 1, H of a 2. */
static void set_sample(const char *text) {
    char *end;
    call.sample_len = 0;
    for (; *text != '\0'; text = *end == ' ' ? end + 1 : end) {
        if (*text == 'h' || *text == 'H') {
            call.sample[call.sample_len++] = *text == 'h' ? 1 : 2;
            return;
        }
        unsigned item = (unsigned)strtoul(text, &end, 10);
        for (unsigned long n = *end == 'x' ? strtoul(end + 1, &end, 10) : 1; n > 0; n--)
            put_item(&call, item);
    }
}

/* ---- plans with their n and Ac, and samples on them: status 0 with the verdict and the items used, 7 or 8 */

struct lot {
    uint32_t size, level, column, severity;
    unsigned n, ac;
};

struct sample_case {
    const char *items;
    unsigned status, accepted, used;
};

enum { MOST_SAMPLES = 48 };

struct plan_case {
    struct lot lot;
    struct sample_case samples[MOST_SAMPLES];
};

static const struct plan_case plans[] = {
    {{1000, LEVEL_II, 10, NORMAL, 80, 2},
     {
         /* the third bad one sinks the lot: 70 more are not checked */
         {"1 0x4 1 0x3 1", 0, 0, 10},
         {"1x3", 0, 0, 3},
         {"0x77 1x3", 0, 0, 80},
         {"1x2 0x77 1", 0, 0, 80},
         {"1x2 0x76 1", 0, 0, 79},
         /* it accepts at n alone */
         {"0x80", 0, 1, 80},
         {"1x2 0x78", 0, 1, 80},
         {"0x78 1x2", 0, 1, 80},
         {"", 7, 0, 0},
         {"0x78", 7, 0, 0},
         {"0x79", 7, 0, 0},
         {"1x2", 7, 0, 0},
         {"1x2 0x77", 7, 0, 0},
         /* what follows the end is not looked at */
         {"1x3 0", 7, 0, 0},
         {"1x3 1", 7, 0, 0},
         {"1x3 2", 7, 0, 0},
         {"1x3 0x77", 7, 0, 0},
         {"1x3 65535x77", 7, 0, 0},
         {"1x3 0x76 2", 7, 0, 0},
         {"0x80 0", 7, 0, 0},
         {"0x80 2", 7, 0, 0},
         {"0x77 1x3 2", 7, 0, 0},
         /* half an item: in place of one that is missing, and after the end */
         {"h", 7, 0, 0},
         {"1x2 h", 7, 0, 0},
         {"0x79 h", 7, 0, 0},
         {"1x3 h", 7, 0, 0},
         {"0x80 h", 7, 0, 0},
         {"1x3 2 h", 7, 0, 0},
         {"0 H", 7, 0, 0},
         {"1x2 H", 7, 0, 0},
         {"1x3 H", 7, 0, 0},
         /* an illegal item that is met decides nothing, however large, and is met before what is missing after it */
         {"2", 8, 0, 0},
         {"65535", 8, 0, 0},
         {"1x2 2", 8, 0, 0},
         {"1x2 257", 8, 0, 0},
         {"0x79 256", 8, 0, 0},
         {"1 2 1x2", 8, 0, 0},
         {"2 1x3 0x76", 8, 0, 0},
         {"2 0x80", 8, 0, 0},
         {"1x2 2 0x78", 8, 0, 0},
         {"0 3 h", 8, 0, 0},
         {"1x2 2 1 0", 8, 0, 0},
     }},
    {{1000, LEVEL_II, 10, TIGHTENED, 80, 1},
     {{"1x2", 0, 0, 2}, {"1 0x78 1", 0, 0, 80}, {"1 0x79", 0, 1, 80}, {"1x3", 7, 0, 0}, {"1 0x78", 7, 0, 0}}},
    {{3200, LEVEL_II, 11, NORMAL, 125, 5},
     {{"1x6", 0, 0, 6}, {"1x5 0x120", 0, 1, 125}, {"1x5 0x119 1", 0, 0, 125}, {"1x5", 7, 0, 0}, {"1x7", 7, 0, 0}}},
    {{3200, LEVEL_II, 11, TIGHTENED, 125, 3}, {{"1x4", 0, 0, 4}, {"1x3 0x122", 0, 1, 125}, {"1x5", 7, 0, 0}}},
    {{80, LEVEL_II, 10, NORMAL, 13, 0},
     {{"1", 0, 0, 1}, {"0x12 1", 0, 0, 13}, {"0x13", 0, 1, 13}, {"0x12", 7, 0, 0}, {"1 0", 7, 0, 0}, {"2", 8, 0, 0}}},
    /* the box of F is an arrow, and in the mode of fractions one third: here it is the plan of E */
    {{100, LEVEL_II, 10, NORMAL, 13, 0}, {{"0x13", 0, 1, 13}, {"1", 0, 0, 1}, {"0x20", 7, 0, 0}}},
    /* the largest sample of all */
    {{500001, LEVEL_III, 2, TIGHTENED, 3150, 1},
     {{"0x3149 1", 0, 1, 3150}, {"1 0x3148 1", 0, 0, 3150}, {"1x2", 0, 0, 2}, {"0x3149", 7, 0, 0}}},
    /* cut to the lot */
    {{10, LEVEL_II, 5, NORMAL, 10, 0},
     {{"0x10", 0, 1, 10},
      {"0x9 1", 0, 0, 10},
      {"0x3 1", 0, 0, 4},
      {"0x9", 7, 0, 0},
      {"0x11", 7, 0, 0},
      {"0x125", 7, 0, 0},
      {"0x10 2", 7, 0, 0},
      {"0x9 2", 8, 0, 0},
      {"2 0x9", 8, 0, 0}}},
    {{4, LEVEL_II, 15, NORMAL, 4, 1},
     {{"1 0x3", 0, 1, 4}, {"0x2 1x2", 0, 0, 4}, {"1x2", 0, 0, 2}, {"1 0x2", 7, 0, 0}, {"0x5", 7, 0, 0}}},
    {{5, LEVEL_II, 15, NORMAL, 5, 1}, {{"0x4 1", 0, 1, 5}, {"1 0x3 1", 0, 0, 5}, {"0x4", 7, 0, 0}, {"2", 8, 0, 0}}},
    {{7, LEVEL_II, 6, TIGHTENED, 7, 0}, {{"0x7", 0, 1, 7}, {"0x6 1", 0, 0, 7}, {"0x6", 7, 0, 0}}},
    /* above column 15 nonconformities are counted, and none is illegal */
    {{15, LEVEL_II, 16, NORMAL, 3, 1},
     {{"2", 0, 0, 1},
      {"65535", 0, 0, 1},
      {"0 65535", 0, 0, 2},
      {"1 65535", 0, 0, 2},
      {"1 0 1", 0, 0, 3},
      {"0x2 65535", 0, 0, 3},
      {"1 0x2", 0, 1, 3},
      {"0x2", 7, 0, 0},
      {"1 h", 7, 0, 0},
      {"65535x2", 7, 0, 0},
      {"2 h", 7, 0, 0},
      {"0x4", 7, 0, 0}}},
    {{2, LEVEL_III, 16, NORMAL, 2, 1},
     {{"1 0", 0, 1, 2}, {"1x2", 0, 0, 2}, {"2", 0, 0, 1}, {"2 0", 7, 0, 0}, {"0x3", 7, 0, 0}, {"1", 7, 0, 0}}},
    {{15, LEVEL_II, 25, NORMAL, 3, 44},
     {{"44 0x2", 0, 1, 3},
      {"0x2 44", 0, 1, 3},
      {"45", 0, 0, 1},
      {"20 25", 0, 0, 2},
      {"44 0 1", 0, 0, 3},
      {"44 65535", 0, 0, 2},
      {"1 44 65535", 7, 0, 0},
      {"44", 7, 0, 0},
      {"44 0 h", 7, 0, 0}}},
    {{15, LEVEL_II, 25, TIGHTENED, 3, 41},
     {{"41 0x2", 0, 1, 3}, {"42", 0, 0, 1}, {"41 0 1", 0, 0, 3}, {"41", 7, 0, 0}}},
};

static void put_lot(enum function function, const struct lot *lot) {
    set_lot(&call, function, lot->size, lot->level, lot->column, lot->severity);
    call.record_len = RECORD;
    call.record[0] = (uint8_t)lot->severity;
}

static void expect_plan(const struct lot *lot) {
    put_lot(PLAN, lot);
    expect(run_both(&call, &answer) == 0 && answer.n == lot->n && answer.ac == lot->ac, "T-04: n and Ac");
}

/* Judged, closed, and resubmitted, on a record of the plan's severity that is fresh but for it. */
static void expect_sample(const struct lot *lot, const struct sample_case *sample) {
    static const enum function functions[] = {CURTAILED, CLOSE_CURTAILED, CLOSE_CURTAILED};
    for (unsigned i = 0; i < 3; i++) {
        put_lot(functions[i], lot);
        set_sample(sample->items);
        call.resubmitted = i == 2;
        expect(run_both(&call, &answer) == sample->status, "T-04: whether a sample ends where it should");
        if (sample->status == 0)
            expect(answer.accepted == sample->accepted && answer.used == sample->used, "T-04: verdict and items used");
        if (sample->status != 0 || i != 1)
            expect(memcmp(answer.record, call.record, RECORD) == 0, "T-04: only an original lot moves the record");
    }
}

static void worked_samples(void) {
    for (unsigned i = 0; i < sizeof plans / sizeof *plans; i++) {
        expect_plan(&plans[i].lot);
        for (const struct sample_case *sample = plans[i].samples; sample->items != NULL; sample++)
            expect_sample(&plans[i].lot, sample);
    }
}

/* ---- the record after a closed lot, at level II */

struct closed_case {
    const char *what;
    uint32_t size, column;
    const char *items;
    unsigned byte;
    uint8_t before[RECORD], after[RECORD];
};

static const struct closed_case closed[] = {
    {"a clean lot on Ac 2", 1000, 10, "0x80", ADD_3, {NORMAL, 9, 0, 0, 4, 0, 1}, {NORMAL, 12, 0, 0, 8, 0, 1}},
    {"within the Ac one column tighter", 1000, 10, "0x79 1", ADD_3, {NORMAL, 9}, {NORMAL, 12}},
    {"beyond it", 1000, 10, "1x2 0x78", SCORE_0, {NORMAL, 9, 0, 0, 4, 0, 1}, {NORMAL, 0, 0, 0, 8, 0, 1}},
    {"beyond it at the last item", 1000, 10, "1 0x78 1", SCORE_0, {NORMAL, 9}, {NORMAL, 0}},
    {"Ac 1", 300, 10, "0x49 1", ADD_2, {NORMAL, 9, 0, 0, 4, 1, 0}, {NORMAL, 11, 0, 0, 8, 1, 0}},
    {"Ac 0", 80, 10, "0x13", ADD_2, {NORMAL, 9}, {NORMAL, 11}},
    {"the score is cut to 30", 1000, 10, "0x80", ADD_3, {NORMAL, 29}, {NORMAL, 30}},
    {"30 gives reduced", 1000, 10, "0x80", ADD_3, {NORMAL, 27, 0, 0, 0, 1, 1}, {REDUCED, 0, 0, 0, 0, 1, 1}},
    {"2 points do not", 300, 10, "0x50", ADD_2, {NORMAL, 27, 0, 0, 0, 1, 1}, {NORMAL, 29, 0, 0, 0, 1, 1}},
    {"nor does a total beyond", 1000, 10, "1x2 0x78", SCORE_0, {NORMAL, 27, 0, 0, 0, 1, 1}, {NORMAL, 0, 0, 0, 0, 1, 1}},
    {"Ac 5: a total of 3", 3200, 11, "1x3 0x122", ADD_3, {NORMAL, 3}, {NORMAL, 6}},
    {"Ac 5: a total of 4", 3200, 11, "1x4 0x121", SCORE_0, {NORMAL, 3}, {NORMAL, 0}},
    {"Ac 44: a total of 30", 15, 25, "0x2 30", ADD_3, {NORMAL, 3}, {NORMAL, 6}},
    {"Ac 44: a total of 31", 15, 25, "31 0x2", SCORE_0, {NORMAL, 3}, {NORMAL, 0}},

    {"a lost lot", 1000, 10, "1x3", LOST, {NORMAL, 9}, {NORMAL, 0, 0, 0, 1}},
    {"lost at n", 1000, 10, "0x77 1x3", LOST, {NORMAL, 30}, {NORMAL, 0, 0, 0, 1}},
    {"lost by one item", 15, 16, "65535", LOST, {NORMAL, 9, 0, 0, 0, 1, 1}, {NORMAL, 0, 0, 0, 1, 1, 1}},
    {"the second of five", 1000, 10, "1x3", LOST, {NORMAL, 9, 0, 0, 8, 0, 1}, {TIGHTENED, 0, 0, 0, 0, 0, 1}},
    {"the second of six", 1000, 10, "1x3", LOST, {NORMAL, 9, 0, 0, 16, 0, 1}, {NORMAL, 0, 0, 0, 1, 0, 1}},

    {"tightened, accepted", 1000, 10, "1 0x79", SCORE_0, {TIGHTENED, 0, 2, 1}, {TIGHTENED, 0, 3, 1}},
    {"five in a row", 1000, 10, "0x80", SCORE_0, {TIGHTENED, 0, 4, 3, 0, 1, 1}, {NORMAL, 0, 0, 0, 0, 1, 1}},
    {"tightened, lost", 1000, 10, "1x2", LOST, {TIGHTENED, 0, 4, 3}, {TIGHTENED, 0, 0, 4}},
    {"the fifth lost", 1000, 10, "0x78 1x2", LOST, {TIGHTENED, 0, 4, 4, 0, 1, 0}, {STOPPED, 0, 0, 0, 0, 1, 0}},

    /* on the run's own fraction, on another letter, lost, and under tightened */
    {"a run of 1/3", 100, 10, "0x13", ADD_2, {NORMAL, 4, 0, 0, 0, 0, 0, 2, LETTER_F, 10}, {NORMAL, 6}},
    {"a run of 1/2", 200, 10, "0x50", ADD_2, {NORMAL, 4, 0, 0, 0, 0, 0, 1, LETTER_G, 10}, {NORMAL, 6}},
    {"on a whole Ac", 1000, 10, "0x80", ADD_3, {NORMAL, 4, 0, 0, 0, 0, 0, 2, LETTER_F, 10}, {NORMAL, 7}},
    {"by a lost lot", 200, 10, "1x2", LOST, {NORMAL, 4, 0, 0, 0, 0, 0, 2, LETTER_G, 10}, {NORMAL, 0, 0, 0, 1}},
    {"tightened", 200, 10, "0x20", SCORE_0, {TIGHTENED, 0, 1, 2, 0, 0, 0, 2, LETTER_G, 10}, {TIGHTENED, 0, 2, 2}},
    {"tightened, lost", 300, 10, "1x2", LOST, {TIGHTENED, 0, 1, 2, 0, 0, 0, 1, LETTER_H, 10}, {TIGHTENED, 0, 0, 3}},
};

/* The record after, and that of a resubmitted lot, which stays. */
static void worked_records(void) {
    static const uint32_t resubmitted[] = {0, 1, 4, 256, 0xffffffff};
    for (unsigned i = 0; i < sizeof closed / sizeof *closed; i++)
        for (unsigned j = 0; j < sizeof resubmitted / sizeof *resubmitted; j++) {
            const struct closed_case *lot = &closed[i];
            set_lot(&call, CLOSE_CURTAILED, lot->size, LEVEL_II, lot->column, NORMAL);
            call.record_len = RECORD;
            memcpy(call.record, lot->before, RECORD);
            call.resubmitted = resubmitted[j];
            set_sample(lot->items);
            expect(run_both(&call, &answer) == 0 && answer.accepted == (lot->byte != LOST), lot->what);
            expect(answer.byte == (j == 0 ? lot->byte : RESUBMITTED), lot->what);
            expect(memcmp(answer.record, j == 0 ? lot->after : lot->before, RECORD) == 0, lot->what);
        }
}

/* ---- a supply that is lost lot by lot: from a fresh record to stopped, and on by a corrective action */

static void supply_step(enum function function, const char *items, unsigned status, unsigned severity) {
    call.function = function;
    call.event = CORRECTIVE;
    set_sample(items);
    expect(run_both(&call, &answer) == status, "T-04: the status of a lot of a supply");
    expect(answer.record[0] == severity, "T-04: the severity after a lot of a supply");
    memcpy(call.record, answer.record, RECORD);
}

static void lost_supply(void) {
    set_lot(&call, CLOSE_CURTAILED, 1000, LEVEL_II, 10, NORMAL);
    call.record_len = RECORD;
    supply_step(CLOSE_CURTAILED, "1x3", 0, NORMAL);
    supply_step(CLOSE_CURTAILED, "1x3 0x77", 7, NORMAL);
    supply_step(CLOSE_SINGLE, "1x3 0x77", 0, TIGHTENED);
    supply_step(CLOSE_CURTAILED, "1x3", 7, TIGHTENED);
    for (unsigned i = 1; i <= 4; i++)
        supply_step(CLOSE_CURTAILED, "0 1 0 1", 0, TIGHTENED);
    call.resubmitted = 1;
    supply_step(CLOSE_CURTAILED, "1x2", 0, TIGHTENED);
    call.resubmitted = 0;
    supply_step(CLOSE_CURTAILED, "2", 8, TIGHTENED);
    supply_step(CLOSE_CURTAILED, "0 1 0 1", 0, STOPPED);
    supply_step(CLOSE_CURTAILED, "1x2", 5, STOPPED);
    call.resubmitted = 1;
    supply_step(CLOSE_CURTAILED, "1x2", 5, STOPPED);
    call.resubmitted = 0;
    supply_step(NEXT, "", 0, TIGHTENED);
    for (unsigned i = 1; i <= 4; i++)
        supply_step(CLOSE_CURTAILED, "1 0x79", 0, TIGHTENED);
    supply_step(CLOSE_CURTAILED, "0x80", 0, NORMAL);
}

/* ---- reduced and stopped, with a book that has an entry of three items and Ac 0, and with one that has none */

static void put_entry(bool there) {
    static const unsigned entry[] = {LETTER_J, 10, 3, 0};
    call.book_len = 0;
    put_book(&call, there);
    for (unsigned i = 0; there && i < 4; i++)
        put_book(&call, entry[i]);
    for (unsigned i = 1; i < COUNTED_SECTIONS; i++)
        put_book(&call, 0);
}

static void no_tables(void) {
    static const enum function functions[] = {CURTAILED, CLOSE_CURTAILED};
    static const char *const samples[] = {"0x3", "1", "0 1", "0x80", "1x3", "", "h", "2", "0 2 h"};
    for (unsigned there = 0; there < 2; there++)
        for (unsigned severity = REDUCED; severity <= STOPPED; severity++) {
            const struct lot lot = {1000, LEVEL_II, 10, severity, 0, 0};
            put_lot(SINGLE, &lot);
            put_entry(there);
            set_sample("0x3");
            expect(run_both(&call, &answer) == (severity == STOPPED ? 5 : there ? 0 : 6), "T-04: the full count");
            for (unsigned i = 0; i < sizeof samples / sizeof *samples; i++)
                for (unsigned f = 0; f < 2; f++) {
                    call.function = functions[f];
                    call.record[5] = call.record[6] = 1;
                    call.resubmitted = i % 2;
                    set_sample(samples[i]);
                    expect(run_both(&call, &answer) == (severity == REDUCED ? 6 : 5), "T-04: 6 under reduced, after 5");
                }
        }
}

/* ---- with everything wrong at once, put right one by one in the order in which they are given */

static void put_right(enum function function, uint8_t severity, unsigned steps) {
    static const struct lot wrong = {1, 7, 26, 4, 0, 0};
    put_lot(function, &wrong);
    put_entry(true);
    call.book_len -= steps > 0 ? 0 : 1;
    call.severity = call.record[0] = steps > 6 ? NORMAL : steps > 5 ? REDUCED : steps > 1 ? severity : 4;
    call.size = steps > 2 ? 1000 : 1;
    call.level = steps > 3 ? LEVEL_II : 7;
    call.column = steps > 4 ? 10 : 26;
    set_sample(steps > 8 ? "1x3" : steps > 7 ? "1x2 h" : "1x2 2 h");
}

/* Stopped at first, and reduced from the first. */
static void refusals_in_order(void) {
    static const enum function functions[] = {CURTAILED, CLOSE_CURTAILED};
    static const unsigned stopped[] = {12 | 15 << 8, 1, 2, 3, 4, 5, 6, 8, 7, 0};
    static const unsigned reduced[] = {12 | 15 << 8, 1, 2, 3, 4, 6, 6, 8, 7, 0};
    for (unsigned f = 0; f < 2; f++)
        for (unsigned steps = 0; steps < 10; steps++) {
            put_right(functions[f], STOPPED, steps);
            expect(run_both(&call, &answer) == stopped[steps], "T-04: 12, then 1 to 6, then what the walk meets");
            put_right(functions[f], REDUCED, steps);
            expect(run_both(&call, &answer) == reduced[steps], "T-04: 12, 1 to 4, 6, then what the walk meets");
        }
}

void curtailed_cases(void) {
    draw_fixed();
    worked_samples();
    worked_records();
    lost_supply();
    no_tables();
    refusals_in_order();
}
