/* Long supplies: lots and orders from a fresh record, held to the written reading of the whole history. */
#include "book.h"
#include "cases.h"
#include "draw.h"
#include "told.h"

#include <stdio.h>
#include <string.h>

enum { NOT_ACCEPTED = 3, RESUBMITTED = 4, CORRECTIVE = 9, REDUCED = 2, STOPPED = 3, SEVERITIES = 4 };

static struct call call;
static struct answer answer;
static struct told told;
static unsigned long changes[SEVERITIES][SEVERITIES], bytes;

/* How the clean run went on: on its plan or with none, and by a change of plan. */
enum { RUNS = 3 };
static unsigned long runs[RUNS][RUNS], changed_plan[RUNS];

/* Original curtailed lots by their verdict, and those of them that ended a clean run. */
static unsigned long curtailed[2], ended_runs[2];

/* The Ac one column tighter than a normal Ac of 2 or more: the number before it in the row of the table. */
static unsigned tighter(unsigned ac) {
    static const unsigned row[] = {1, 2, 3, 5, 7, 10, 14, 21, 30, 44};
    unsigned i = 1;
    while (row[i] < ac)
        i++;
    return row[i - 1];
}

/* The history byte of an accepted original lot. Outside normal no points are told. */
static uint8_t accepted_byte(void) {
    uint8_t letter, share = 0, cut;
    uint16_t n, ac, table_n;
    if (call.record[0] != 0)
        return 2;
    if (call.function == CLOSE_STAGED)
        return answer.used <= call.items_with_points ? 0 : 2;
    if (call.function == CLOSE_FRACTIONAL)
        ref_fractional_plan(call.size, call.level, call.column, 0, call.book, call.book_len, &letter, &n, &ac, &share,
                            &table_n, &cut);
    else
        ref_plan(call.size, call.level, call.column, 0, call.book, call.book_len, &letter, &n, &ac, &table_n, &cut);
    if (share != 0 || ac < 2)
        return 1;
    return sample_total(&call) <= tighter(ac) ? 0 : 2;
}

static uint8_t lot_byte(void) {
    if (call.resubmitted != 0)
        return RESUBMITTED;
    return answer.accepted == 1 ? accepted_byte() : NOT_ACCEPTED;
}

/*
 * How a supply goes for a while: a bad lot in so many, a staged lot in so many, of the others one in the old mode, half
 * of which are curtailed.
 */
struct phase {
    unsigned left, bad_in, staged_in, old_in;
};

static struct phase draw_phase(void) {
    static const unsigned staged_in[] = {2, 2, 10, 40};
    bool poor = one_in(3);
    unsigned left = between(5, poor ? 20 : 80), bad_in = poor ? between(1, 3) : between(6, 200);
    return (struct phase){left, bad_in, PICK(staged_in), one_in(3) ? 1 : between(2, 20)};
}

/* Any history byte; orders that grant come more often than those that withdraw. */
static uint32_t draw_event(void) {
    static const uint8_t granted[] = {5, 7};
    if (call.record[0] == STOPPED && one_in(2))
        return CORRECTIVE;
    return one_in(2) ? granted[below(2)] : below(one_in(10) ? 256 : 10);
}

/* Judging the lot first, on the same record, says what closing it said, and moves nothing. */
static void hold_judged(enum function judge) {
    enum function closing = call.function;
    struct answer judged;
    call.function = judge;
    if (run_both(&call, &judged) != 0 || judged.accepted != answer.accepted || judged.used != answer.used)
        report("judging a lot says what closing it says", &call);
    if (memcmp(judged.record, call.record, RECORD) != 0)
        report("judging a lot moves nothing", &call);
    call.function = closing;
}

/* Under reduced few curtailed lots are tried, since each is refused. */
static enum function draw_closing(const struct phase *phase) {
    if (one_in(phase->staged_in))
        return CLOSE_STAGED;
    if (!one_in(phase->old_in))
        return CLOSE_FRACTIONAL;
    return one_in(call.record[0] == REDUCED ? 20 : 2) ? CLOSE_CURTAILED : CLOSE_SINGLE;
}

/* Closes a lot, or moves the record by an order or by a lot that was judged elsewhere. */
static uint64_t next_event(const struct phase *phase) {
    if (one_in(call.record[0] == STOPPED ? 2 : 12)) {
        call.function = NEXT;
        call.event = draw_event();
        return run_both(&call, &answer);
    }
    call.function = draw_closing(phase);
    draw_next_lot(&call, !one_in(phase->bad_in));
    uint64_t status = run_both(&call, &answer);
    if (status == 0 && answer.byte != lot_byte())
        report("the history byte is not what the lot is", &call);
    if (status == 0 && call.function == CLOSE_FRACTIONAL)
        hold_judged(FRACTIONAL);
    if (status == 0 && call.function == CLOSE_CURTAILED)
        hold_judged(CURTAILED);
    return status;
}

static void count_change(void) {
    unsigned before = call.record[CLEAN] % RUNS, after = answer.record[CLEAN] % RUNS;
    bool same_plan = memcmp(call.record + CLEAN_LETTER, answer.record + CLEAN_LETTER, 2) == 0;
    changes[call.record[0] % SEVERITIES][answer.record[0] % SEVERITIES]++;
    if (before > 0 && after > 0 && !same_plan)
        changed_plan[before]++;
    else
        runs[before][after]++;
    if (call.function == CLOSE_CURTAILED && call.resubmitted == 0) {
        curtailed[answer.accepted & 1]++;
        ended_runs[answer.accepted & 1] += before > 0;
    }
}

/* The written reading refuses the same byte for the same reason. A lot that is refused is any lot. */
static void hold_refusal(uint64_t status) {
    uint8_t record[RECORD];
    told.history[told.len] = (uint8_t)(call.function == NEXT ? call.event : below(5));
    if (status == 1 || status == 5 || status == 10)
        if (ref_read_record(told.history, told.entered, told.len + 1, record) != (status | (uint64_t)told.len << 8))
            report("the written reading does not refuse what was refused", &call);
}

/* The list of the whole history at once has the severities of the record after each byte. */
static void hold_list(const uint8_t *severities) {
    call.function = LIST;
    call.sample_len = call.out_len = told.len;
    memcpy(call.sample, told.history, told.len);
    if (run_both(&call, &answer) != 0 || memcmp(last_out(), severities, told.len) != 0)
        report("the severities of the record are not those of the list", &call);
    call.out_len--;
    if (run_both(&call, &answer) != 11)
        report("a list is too long for a buffer that is one short", &call);
}

static void long_supply(unsigned events) {
    static uint8_t severities[SAMPLE_ROOM];
    struct phase phase = {0, 1, 1, 1};
    memset(&call, 0, sizeof call);
    call.record_len = RECORD;
    told.len = 0;
    for (unsigned i = 0; i < events; i++) {
        if (phase.left-- == 0)
            phase = draw_phase();
        uint64_t status = next_event(&phase);
        if (status != 0) {
            hold_refusal(status);
            continue;
        }
        severities[told.len] = answer.record[0];
        tell(&told, &call, &answer);
        count_change();
        memcpy(call.record, answer.record, RECORD);
    }
    hold_list(severities);
    bytes += told.len;
}

static bool summary_of_changes(void) {
    static const uint8_t all[][2] = {{0, 1}, {0, 2}, {1, 0}, {1, 3}, {2, 0}, {3, 1}};
    static const char names[] = "NTRX";
    bool ok = true;
    printf("long supplies: %lu history bytes, changes:", bytes);
    for (unsigned i = 0; i < sizeof all / sizeof *all; i++) {
        unsigned long times = changes[all[i][0]][all[i][1]];
        printf(" %c to %c %lu", names[all[i][0]], names[all[i][1]], times);
        ok = ok && times != 0;
    }
    printf("%s\n", ok ? "" : "  SOMETHING NEVER OCCURRED");
    return ok;
}

/* A run goes up by one, is held, or is cleared; on another plan it is 1. */
static bool summary_of_runs(void) {
    static const uint8_t all[][2] = {{0, 0}, {0, 1}, {1, 1}, {1, 2}, {2, 2}, {1, 0}, {2, 0}};
    bool ok = changed_plan[1] != 0 && changed_plan[2] != 0;
    printf("clean runs:");
    for (unsigned i = 0; i < sizeof all / sizeof *all; i++) {
        unsigned long times = runs[all[i][0]][all[i][1]];
        printf(" %u to %u %lu", all[i][0], all[i][1], times);
        ok = ok && times != 0;
    }
    printf(", to another plan from 1 %lu, from 2 %lu", changed_plan[1], changed_plan[2]);
    printf("%s\n", ok ? "" : "  SOMETHING NEVER OCCURRED");
    return ok;
}

static bool summary_of_curtailed_lots(void) {
    bool ok = curtailed[0] != 0 && curtailed[1] != 0 && ended_runs[0] + ended_runs[1] != 0;
    printf("curtailed lots: %lu accepted, %lu not; of these %lu and %lu ended a clean run%s\n", curtailed[1],
           curtailed[0], ended_runs[1], ended_runs[0], ok ? "" : "  SOMETHING NEVER OCCURRED");
    return ok;
}

bool long_supplies(unsigned supplies, unsigned events) {
    for (unsigned i = 0; i < supplies && events < SAMPLE_ROOM; i++)
        long_supply(events);
    bool ok = summary_of_changes();
    ok = summary_of_runs() && ok;
    return summary_of_curtailed_lots() && ok;
}
