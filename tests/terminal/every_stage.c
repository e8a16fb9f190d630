/*
 * T-02 whole: a lot decided at every stage of every number of stages, on every record in range that is not stopped and
 * has no clean run.
 */
#include "book.h"
#include "cases.h"
#include "draw.h"
#include "told.h"

#include <string.h>

enum { NORMAL, TIGHTENED, REDUCED };
enum { ADD_3 = 0, SCORE_0 = 2, NOT_ACCEPTED = 3, RESUBMITTED = 4, IS_STEADY = 5, IS_PERMITTED = 7 };
enum { SEVERITY, SCORE, RUN, COUNT, WINDOW, STEADY, PERMISSION };
enum { MARK = 65535, LETTER_J = 8, LEVEL_II = 5, AQL_1_0 = 10, MOST_SCORE = 30 };

static struct call call;
static struct answer answer;

static void expect(bool holds, const char *what) {
    if (!holds)
        report(what, &call);
}

/* The points of a lot accepted under normal, stage by stage, for each number of stages. */
static const uint8_t points[STAGES + 1][STAGES] = {
    [2] = {3, 0},          [3] = {3, 3, 3},          [4] = {3, 3, 3, 0},
    [5] = {3, 3, 3, 0, 0}, [6] = {3, 3, 3, 0, 0, 0}, [7] = {3, 3, 3, 0, 0, 0, 0},
};

/* ---- a lot that a stage, counted from 1, decides: by rising numbers, or as the first after marks */

struct lot {
    unsigned stages, stage;
    bool accepted, marked;
};

/* Of different sizes, so that a multiple of the first tells no stage; the first has room for one bad item a stage. */
static unsigned size_of(unsigned stage) {
    return STAGES + stage;
}

static void put_plan(const struct lot *lot, unsigned severity) {
    const unsigned head[] = {0, 1, severity, LETTER_J, AQL_1_0, lot->stages};
    call.book_len = 0;
    for (unsigned i = 0; i < sizeof head / sizeof *head; i++)
        put_book(&call, head[i]);
    for (unsigned i = 1; i <= lot->stages; i++)
        put_book(&call, size_of(i));
    for (unsigned i = 1; i <= lot->stages; i++) {
        put_book(&call, !lot->marked ? i - 1 : i < lot->stage ? MARK : 0);
        put_book(&call, lot->marked ? 1 : lot->stages);
    }
    put_book(&call, 0);
    put_book(&call, 0);
}

/* By rising numbers one bad item more in each stage goes on, and so do all but one of those that reject. */
static unsigned bad_in(const struct lot *lot, unsigned stage) {
    if (lot->accepted)
        return !lot->marked && stage < lot->stage;
    return (stage == lot->stage) + (stage == 1 && !lot->marked ? lot->stages - 1 : 0);
}

static void put_sample(const struct lot *lot) {
    call.sample_len = 0;
    for (unsigned stage = 1; stage <= lot->stage; stage++)
        for (unsigned i = 0; i < size_of(stage); i++)
            put_item(&call, i < bad_in(lot, stage));
}

/* ---- what closing it makes of the record */

static unsigned byte_of(const struct lot *lot) {
    if (call.resubmitted != 0)
        return RESUBMITTED;
    if (!lot->accepted)
        return NOT_ACCEPTED;
    return call.record[SEVERITY] == NORMAL && points[lot->stages][lot->stage - 1] == 3 ? ADD_3 : SCORE_0;
}

/* A new stay keeps the two orders alone. */
static void start_stay(uint8_t *record, uint8_t severity) {
    memset(record, 0, STEADY);
    record[SEVERITY] = severity;
}

static void accept_original(const struct lot *lot, uint8_t *record) {
    unsigned added = points[lot->stages][lot->stage - 1], score = added > 0 ? record[SCORE] + added : 0;
    if (record[SEVERITY] == TIGHTENED && ++record[RUN] == 5)
        start_stay(record, NORMAL);
    else if (record[SEVERITY] == NORMAL) {
        record[SCORE] = (uint8_t)(score < MOST_SCORE ? score : MOST_SCORE);
        record[WINDOW] = record[WINDOW] << 1 & 31;
        if (record[SCORE] == MOST_SCORE && record[STEADY] && record[PERMISSION])
            start_stay(record, REDUCED);
    }
}

/* The record after a lot not accepted is held by run_both alone, but for its score. */
static void close_both(const struct lot *lot) {
    for (call.resubmitted = 0; call.resubmitted < 2; call.resubmitted++) {
        uint8_t record[RECORD];
        uint64_t status = run_both(&call, &answer);
        expect(status == 0 && answer.accepted == lot->accepted, "what the stage decides");
        expect(2u * answer.used == call.sample_len, "the items up to the stage that decides");
        expect(answer.byte == byte_of(lot), "T-02: the byte of a lot by its stage");
        memcpy(record, call.record, RECORD);
        if (call.resubmitted == 0 && lot->accepted)
            accept_original(lot, record);
        if (call.resubmitted != 0 || lot->accepted)
            expect(memcmp(answer.record, record, RECORD) == 0, "T-02: the record after a lot by its stage");
        else
            expect(answer.record[SCORE] == 0, "a lot not accepted leaves no score");
    }
    call.resubmitted = 0;
}

/* ---- every record of a severity, with and without each order */

static void every_order(const struct lot *lot) {
    for (unsigned orders = 0; orders < 4; orders++) {
        call.record[STEADY] = (uint8_t)(orders & 1);
        call.record[PERMISSION] = (uint8_t)(orders >> 1);
        close_both(lot);
    }
}

/* At most one lot of the window was not accepted. */
static void every_score(const struct lot *lot) {
    static const uint8_t windows[] = {0, 1, 2, 4, 8, 16};
    for (unsigned i = 0; i < sizeof windows; i++)
        for (unsigned score = 0; score <= MOST_SCORE; score++) {
            call.record[SCORE] = (uint8_t)score;
            call.record[WINDOW] = windows[i];
            every_order(lot);
        }
}

static void every_run(const struct lot *lot) {
    for (unsigned run = 0; run < 5; run++)
        for (unsigned count = 0; count < 5; count++) {
            call.record[RUN] = (uint8_t)run;
            call.record[COUNT] = (uint8_t)count;
            every_order(lot);
        }
}

static void every_record(const struct lot *lot) {
    static void (*const records[])(const struct lot *) = {every_score, every_run, every_order};
    for (unsigned severity = NORMAL; severity <= REDUCED; severity++) {
        memset(call.record, 0, RECORD);
        call.record[SEVERITY] = (uint8_t)severity;
        put_plan(lot, severity);
        records[severity](lot);
    }
}

/* ---- ten lots alike after both orders: document 01's history 5, 7 and ten 0 where each of them adds 3 */

static struct told told;

static void go_on(enum function function, uint32_t event) {
    call.function = function;
    call.event = event;
    expect(run_both(&call, &answer) == 0, "an order, and a lot, of a supply");
    tell(&told, &call, &answer);
    memcpy(call.record, answer.record, RECORD);
}

static void ten_lots(const struct lot *lot) {
    unsigned added = points[lot->stages][lot->stage - 1];
    memset(call.record, 0, RECORD);
    put_plan(lot, NORMAL);
    told.len = 0;
    go_on(NEXT, IS_STEADY);
    go_on(NEXT, IS_PERMITTED);
    for (unsigned i = 1; i <= 10; i++) {
        go_on(CLOSE_STAGED, 0);
        unsigned reduced = added * i == MOST_SCORE;
        expect(call.record[SEVERITY] == (reduced ? REDUCED : NORMAL), "T-02: ten lots that add 3 give reduced");
        expect(call.record[SCORE] == (reduced ? 0 : added * i), "T-02: the score lot by lot");
    }
}

void every_stage(void) {
    struct lot lot;
    draw_fixed();
    set_lot(&call, CLOSE_STAGED, 1000, LEVEL_II, AQL_1_0, NORMAL);
    call.record_len = RECORD;
    for (lot.stages = 2; lot.stages <= STAGES; lot.stages++)
        for (lot.stage = 1; lot.stage <= lot.stages; lot.stage++)
            for (unsigned i = 0; i < 4; i++) {
                lot.accepted = i % 2 == 0;
                lot.marked = i > 1;
                put_sample(&lot);
                every_record(&lot);
                if (lot.accepted)
                    ten_lots(&lot);
            }
}
